"""The library whose allocations can be refused, linked once for all tests of a process."""
from __future__ import annotations

import shutil

import pytest

from tests.python.refusing import CC, link_refusing


@pytest.fixture(scope="session", name="library")
def library_that_refuses(tmp_path_factory: pytest.TempPathFactory) -> str:
    if not shutil.which(CC):
        pytest.skip(f"there is no C compiler {CC}")
    path = tmp_path_factory.mktemp("refusing") / "libsmblease.so"
    link_refusing(path)
    return str(path)
