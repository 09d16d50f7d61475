"""After any requests of many clients the files hold what was accepted, byte for byte, and nothing is left over."""
from __future__ import annotations

import errno
import os
import random
from pathlib import Path
from typing import Any

import pytest

from smblease import Rules, Status
from smblease.serve import disk_bytes
from smblease.serve import server as server_module
from tests.serve.in_process import NotingHost, Sent, server_in
from tests.serve.random_requests import RandomRequests


class FullDisk:
    """The module `os`, whose writes are now and then taken in part and then refused; what was there fits again."""

    def __init__(self, chance: random.Random) -> None:
        self._chance = chance
        self._next = ""

    def __getattr__(self, name: str) -> Any:
        return getattr(os, name)

    def pwrite(self, descriptor: int, data: Any, offset: int) -> int:
        now, self._next = self._next, ""
        if now == "refused":
            self._next = "whole"
            raise OSError(errno.ENOSPC, os.strerror(errno.ENOSPC))
        if now != "whole" and len(data) > 1 and self._chance.random() < 0.1:
            self._next = "refused"
            return os.pwrite(descriptor, data[:self._chance.randrange(1, len(data))], offset)
        return os.pwrite(descriptor, data, offset)


@pytest.fixture
def folders(tmp_path: Path) -> tuple[Path, Path]:
    made = tmp_path / "share", tmp_path / "streams"
    for folder in made:
        folder.mkdir()
    return made


@pytest.mark.parametrize("rules", ["by-key,whole", "by-client,as-free"])
@pytest.mark.parametrize("count", [4000, pytest.param(100000, marks=pytest.mark.long)])
def test_accepted_writes(folders: tuple[Path, Path], chooser: random.Random, monkeypatch: pytest.MonkeyPatch, rules: str,
                         count: int) -> None:
    """They are other requests for another --seed."""
    monkeypatch.setattr(server_module, "ManagerHost", NotingHost)
    monkeypatch.setattr(disk_bytes, "os", FullDisk(chooser))
    share = folders[0]
    sent: Sent = []
    with server_in(*folders, Rules.of(rules)) as server:
        run = RandomRequests(server, sent, chooser)
        while run.given < count:
            run.step()
            if run.given % 50 == 0:
                run.check()
                assert {it.name: it.read_bytes() for it in share.iterdir()} == run.files.contents
        run.end()
        assert {it.name: it.read_bytes() for it in share.iterdir()} == run.files.contents
        run.check()
        assert (server.opens, server.host.waiting, server.host.manager.opens()) == ({}, [], ())
        # pylint: disable-next=protected-access  # a descriptor that is left is seen nowhere else
        assert server.names._held == {}
    wanted = {Status.SUCCESS, Status.DISK_FULL, Status.CANCELLED, Status.FILE_CLOSED, Status.SHARING_VIOLATION,
              Status.OBJECT_NAME_NOT_FOUND, Status.DELETE_PENDING, Status.END_OF_FILE, Status.FILE_LOCK_CONFLICT}
    assert wanted <= set(run.statuses)
