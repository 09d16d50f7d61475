"""What the disk has before a client is answered: bytes that are written through, and what is flushed (3.3.5.11, 3.3.5.13)."""
from __future__ import annotations

import asyncio
import errno
import os
from collections.abc import Iterator
from pathlib import Path

import pytest

from smblease import Rules, Status
from smblease.drive.headers import Message
from smblease.serve.server import Server
from tests.serve.in_process import FrameClient, Sent, server_in
from tests.serve.requests import Body, create, flush, write

WRITE_THROUGH = 0x2
FOLDER = create("folder", access=0x120089 | 0x6, options=1)


class Disk:
    """It notes what is synced, and how many messages were sent by then."""

    def __init__(self, sent: Sent) -> None:
        self._sent = sent
        self.synced: list[tuple[int, int]] = []
        self.fault = 0

    def sync(self, descriptor: int) -> None:
        self.synced.append((os.fstat(descriptor).st_ino, sum(it.status != Status.PENDING for _, it in self._sent)))
        if self.fault:
            raise OSError(self.fault, os.strerror(self.fault))


class Served:
    def __init__(self, server: Server, folder: Path, sent: Sent, disk: Disk) -> None:
        self._server, self._sent = server, sent
        self.folder, self.disk = folder, disk
        self.client = FrameClient(server, b"g" * 16, sent)

    def ask(self, body: Body) -> Message:
        """The answer; what was synced before is on the disk's list."""
        del self._sent[:]
        number = self.client.give(body)
        while True:
            found = [it for _, it in self._sent if it.identifier == number and it.status != Status.PENDING]
            if found:
                return found[0]
            self._server.loop.run_until_complete(asyncio.sleep(0.001))

    def open(self, body: Body) -> int:
        return self.ask(body).number(128, 8)


@pytest.fixture
def served(tmp_path: Path, monkeypatch: pytest.MonkeyPatch) -> Iterator[Served]:
    share, streams = tmp_path / "share", tmp_path / "streams"
    share.mkdir()
    streams.mkdir()
    sent: Sent = []
    disk = Disk(sent)
    with server_in(share, streams, Rules()) as server:
        made = Served(server, share, sent, disk)
        monkeypatch.setattr(os, "fsync", disk.sync)
        monkeypatch.setattr(os, "fdatasync", disk.sync)
        yield made
        made.client.cut()


def through(body: Body) -> Body:
    """A WRITE with SMB2_WRITEFLAG_WRITE_THROUGH (2.2.21)."""
    command, text = body
    return command, text[:44] + b"\1\0\0\0" + text[48:]


@pytest.mark.parametrize("options, is_through, expected", [
    pytest.param(0, False, False, id="plain"), pytest.param(0, True, True, id="by_the_write"),
    pytest.param(WRITE_THROUGH, False, True, id="by_the_open"),
])
def test_a_write(served: Served, options: int, is_through: bool, expected: bool) -> None:
    opened = served.open(create("file", options=options))
    body = write(opened, 0, b"bytes")
    assert served.ask(through(body) if is_through else body).status == Status.SUCCESS
    assert served.disk.synced == [((served.folder / "file").stat().st_ino, 0)] * expected


def test_a_write_through_that_fails(served: Served) -> None:
    opened = served.open(create("file"))
    served.disk.fault = errno.EIO
    assert served.ask(through(write(opened))).status == Status.IO_DEVICE_ERROR


@pytest.mark.parametrize("body, name", [
    pytest.param(create("file"), "file", id="a_file"), pytest.param(FOLDER, "folder", id="a_folder"),
    pytest.param(create("file", access=0x120116), "file", id="a_file_that_is_written_alone"),
])
def test_a_flush(served: Served, body: Body, name: str) -> None:
    opened = served.open(body)
    assert served.ask(flush(opened)).status == Status.SUCCESS
    assert served.disk.synced == [((served.folder / name).stat().st_ino, 0)]


@pytest.mark.parametrize("body", [create("file", access=0x120089), create("folder", access=0x81, options=1)])
def test_a_flush_by_an_open_that_can_not_write(served: Served, body: Body) -> None:
    """It is refused, as by smbd: of a folder by an open that can't add to it (3.3.5.11)."""
    assert served.ask(flush(served.open(body))).status == Status.ACCESS_DENIED
    assert not served.disk.synced


@pytest.mark.parametrize("fault, expected", [(errno.EINVAL, Status.SUCCESS), (errno.EIO, Status.IO_DEVICE_ERROR)])
def test_a_folder_that_can_not_be_flushed(served: Served, fault: int, expected: Status) -> None:
    """There are file systems that have nothing of the kind."""
    opened = served.open(FOLDER)
    served.disk.fault = fault
    assert served.ask(flush(opened)).status == expected
