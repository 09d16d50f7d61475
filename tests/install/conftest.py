"""The wheel and the sdist of this clone, each made once by a process."""
from __future__ import annotations

from pathlib import Path

import pytest

from tests.install.making import made_sdist, made_wheel
from tests.paths import TOP


@pytest.fixture(scope="session")
def wheel(tmp_path_factory: pytest.TempPathFactory) -> Path:
    return made_wheel(TOP, tmp_path_factory.mktemp("wheel"))


@pytest.fixture(scope="session")
def sdist(tmp_path_factory: pytest.TempPathFactory) -> Path:
    return made_sdist(tmp_path_factory.mktemp("sdist"))
