"""A fixture of pytest for tests of SMB clients: a share on loopback, and what steers its server (docs/CLIENT_TESTS.md).

Nothing else of this package needs pytest. A conftest.py has

>>> pytest_plugins = ["smblease.testing"]
"""
from __future__ import annotations

from collections.abc import Iterator

import pytest

from smblease.serve.steering import Control, SteeredShare, steered_share

__all__ = ["Control", "SteeredShare", "smb_share"]

MARK = "smb_share"


def pytest_configure(config: pytest.Config) -> None:
    config.addinivalue_line("markers", f"{MARK}(*words): words of serve/run for the fixture smb_share")


@pytest.fixture
def smb_share(request: pytest.FixtureRequest, tmp_path_factory: pytest.TempPathFactory) -> Iterator[SteeredShare]:
    """A share of an empty folder, by a server of its own that ends with the test."""
    words = [str(word) for mark in request.node.iter_markers(MARK) for word in mark.args]
    with steered_share(tmp_path_factory.mktemp("share"), *words) as share:
        yield share
