"""What a rename and a deletion find when others give up handles, which they wait for."""
from __future__ import annotations

import errno
import os
from collections.abc import Callable
from dataclasses import dataclass
from pathlib import Path
from typing import TYPE_CHECKING

import pytest

from smblease import Rules, Status
from smblease.serve.create_parameters import CREATE, DELETE_ON_CLOSE, DIRECTORY_FILE, OPEN, OVERWRITE_IF
from smblease.serve.server_process import ServerProcess
from tests.serve.conftest import Connect
from tests.serve.in_process import FrameClient, Sent, server_in
from tests.serve.requests import KEY, OTHER_KEY, Body, acknowledgment, close, create, leased, read, rename, set_info, write

if TYPE_CHECKING:
    from tests.serve.wire_client import WireClient

DELETING = 0x13019F
LIST = 0x81
KEPT = b"kept"


@dataclass
class Waiting:
    """A request of `one` that waits for `holder` to give up the handles of `file`, while `other` does what it likes."""

    holder: "WireClient"
    one: "WireClient"
    other: "WireClient"
    opened: int
    number: int = 0

    def begin(self, body: Body) -> None:
        self.number = self.one.send(body)
        assert self.one.receive().status == Status.PENDING

    def end(self) -> int:
        self.holder.ask(acknowledgment(KEY, "R"))
        return self.one.answer_to(self.number).status

    def content(self, name: str) -> bytes | None:
        """The bytes of a file, or none where there is no such file."""
        message = self.other.ask(create(name, disposition=OPEN))
        if message.status != Status.SUCCESS:
            return None
        file_id = message.number(128, 8)
        data = self.other.ask(read(file_id)).data[80:]
        self.other.ask(close(file_id))
        return data

    def make(self, name: str) -> int:
        file_id = self.other.open(create(name, disposition=CREATE))
        assert self.other.status(write(file_id, 0, KEPT)) == Status.SUCCESS
        return file_id


@pytest.fixture
def waiting(served: ServerProcess, connect: Connect) -> Waiting:
    holder, one, other = (connect(served) for _ in range(3))
    file_id = holder.open(leased("file", KEY, "RH"))
    holder.ask(write(file_id, 0, b"file"))
    return Waiting(holder, one, other, one.open(create("file", access=DELETING, disposition=OPEN)))


@pytest.mark.parametrize("replaces", [False, True])
def test_a_file_that_was_made_meanwhile(waiting: Waiting, replaces: bool) -> None:
    """It is replaced where that was asked for; else both files stay."""
    waiting.begin(rename(waiting.opened, "new", replaces))
    waiting.other.ask(close(waiting.make("new")))
    assert waiting.end() == (Status.SUCCESS if replaces else Status.OBJECT_NAME_COLLISION)
    assert waiting.content("new") == (b"file" if replaces else KEPT)
    assert waiting.content("file") == (None if replaces else b"file")


def test_a_file_that_was_opened_meanwhile(waiting: Waiting) -> None:
    """What somebody has open isn't replaced."""
    waiting.begin(rename(waiting.opened, "new"))
    waiting.make("new")
    assert waiting.end() == Status.ACCESS_DENIED
    assert (waiting.content("new"), waiting.content("file")) == (KEPT, b"file")


def test_a_folder_that_was_removed_meanwhile(waiting: Waiting) -> None:
    waiting.other.ask(close(waiting.other.open(create("folder", access=LIST, options=DIRECTORY_FILE))))
    waiting.begin(rename(waiting.opened, "folder\\new"))
    folder = waiting.other.open(create("folder", access=DELETING, options=DIRECTORY_FILE))
    assert waiting.other.status(set_info(folder, 13, b"\1")) == Status.SUCCESS
    assert waiting.other.status(close(folder)) == Status.SUCCESS
    assert waiting.end() == Status.OBJECT_PATH_NOT_FOUND
    assert waiting.content("file") == b"file"


@pytest.mark.parametrize("body", [pytest.param(lambda it: rename(it, "new"), id="rename"),
                                  pytest.param(lambda it: set_info(it, 13, b"\1"), id="deletion")])
def test_an_open_that_was_closed_meanwhile(waiting: Waiting, body: Callable[[int], Body]) -> None:
    waiting.begin(body(waiting.opened))
    assert waiting.one.status(close(waiting.opened)) == Status.SUCCESS
    assert waiting.end() == Status.FILE_CLOSED
    assert (waiting.content("new"), waiting.content("file")) == (None, b"file")


def test_a_file_in_a_folder_that_is_to_be_deleted(served: ServerProcess, connect: Connect) -> None:
    """It isn't made, since it would be left without its folder."""
    one = connect(served)
    folder = one.open(create("folder", access=DELETING, options=DIRECTORY_FILE))
    assert one.status(set_info(folder, 13, b"\1")) == Status.SUCCESS
    assert one.status(create("folder\\file", disposition=CREATE)) == Status.DELETE_PENDING


def test_a_folder_that_is_to_be_deleted_at_its_close(served: ServerProcess, connect: Connect) -> None:
    """It stays where there is something in it."""
    one = connect(served)
    folder = one.open(create("folder", access=DELETING, options=DIRECTORY_FILE | DELETE_ON_CLOSE))
    one.ask(close(one.open(create("folder\\file", disposition=CREATE))))
    one.ask(close(folder))
    assert one.status(create("folder", access=LIST, disposition=OPEN, options=DIRECTORY_FILE)) == Status.SUCCESS
    assert one.status(create("folder\\file", disposition=OPEN)) == Status.SUCCESS


def test_an_open_stream_of_a_file_that_was_deleted(served: ServerProcess, connect: Connect) -> None:
    """It goes with its last open."""
    one = connect(served)
    file_id = one.open(create("file", access=DELETING))
    stream = one.open(create("file:stream"))
    assert one.status(set_info(file_id, 13, b"\1")) == Status.SUCCESS
    one.ask(close(file_id))
    one.ask(close(stream))
    assert one.status(create("file:stream", disposition=OPEN)) == Status.OBJECT_NAME_NOT_FOUND


def test_an_overwrite_that_is_refused_after_it_waited(served: ServerProcess, connect: Connect) -> None:
    """What was written meanwhile is kept. The key of the create has a lease on another file by then."""
    holder, one, other = (connect(served) for _ in range(3))
    file_id = holder.open(leased("file", KEY, "RWH"))
    holder.ask(write(file_id, 0, b"file"))
    number = one.send(leased("file", OTHER_KEY, "RWH", disposition=OVERWRITE_IF))
    assert one.receive().status == Status.PENDING
    one.open(leased("other", OTHER_KEY, "RWH"))
    assert holder.status(write(file_id, 4, b" and more")) == Status.SUCCESS
    holder.ask(close(file_id))
    assert one.answer_to(number).status == Status.INVALID_PARAMETER
    assert other.ask(read(other.open(create("file", disposition=OPEN)))).data[80:] == b"file and more"


def test_a_replaced_file_whose_name_differs_in_case(served: ServerProcess, connect: Connect) -> None:
    """It goes with its streams, and the new name is as it was asked for."""
    one = connect(served)
    for name, data in (("Kept", KEPT), ("Kept:stream", b"stream"), ("file", b"file"), ("file:stream", b"mine")):
        opened = one.open(create(name))
        one.ask(write(opened, 0, data))
        one.ask(close(opened))
    stream = one.open(create("file:stream", disposition=OPEN))
    assert one.status(rename(one.open(create("file", access=DELETING)), "kEPT")) == Status.SUCCESS
    assert one.ask(read(one.open(create("KEPT", disposition=OPEN)))).data[80:] == b"file"
    assert one.ask(read(one.open(create("kept:stream", disposition=OPEN)))).data[80:] == b"mine"
    one.ask(close(stream))
    assert one.status(create("file", disposition=OPEN)) == Status.OBJECT_NAME_NOT_FOUND


def test_a_rename_that_the_disk_refuses(tmp_path: Path, monkeypatch: pytest.MonkeyPatch) -> None:
    """Neither file is lost."""
    share, streams = tmp_path / "share", tmp_path / "streams"
    share.mkdir()
    streams.mkdir()
    (share / "old").write_bytes(b"old")
    (share / "new").write_bytes(b"new")
    sent: Sent = []
    with server_in(share, streams, Rules()) as server:
        one = FrameClient(server, b"g" * 16, sent)
        one.give(create("old", access=DELETING, disposition=OPEN))
        opened = sent.pop()[1].number(128, 8)

        def refused(*_: object, **__: object) -> None:
            raise PermissionError(errno.EACCES, os.strerror(errno.EACCES))
        with monkeypatch.context() as patch:
            patch.setattr(os, "rename", refused)
            one.give(rename(opened, "new"))
        assert sent.pop()[1].status == Status.ACCESS_DENIED
        assert {it.name: it.read_bytes() for it in share.iterdir()} == {"old": b"old", "new": b"new"}
        one.give(rename(opened, "new"))
        assert sent.pop()[1].status == Status.SUCCESS
        assert {it.name: it.read_bytes() for it in share.iterdir()} == {"new": b"old"}
        one.cut()


@pytest.mark.parametrize("old, new", [("file", "other:stream"), ("file:stream", "other"), ("file:stream", "file:other")])
def test_a_stream_has_no_new_name(served: ServerProcess, connect: Connect, old: str, new: str) -> None:
    """A file that became a stream of nothing couldn't be found any more."""
    one = connect(served)
    assert one.status(rename(one.open(create(old, access=DELETING)), new)) == Status.NOT_SUPPORTED
    assert one.status(create(old, disposition=OPEN)) == Status.SUCCESS


def test_a_file_that_may_only_be_read_is_not_replaced(served: ServerProcess, connect: Connect) -> None:
    one = connect(served)
    kept = one.open(create("kept"))
    assert one.status(set_info(kept, 4, bytes(32) + (1).to_bytes(4, "little") + bytes(4))) == Status.SUCCESS
    one.ask(close(kept))
    assert one.status(rename(one.open(create("file", access=DELETING)), "kept")) == Status.ACCESS_DENIED


@pytest.mark.parametrize("access, expected", [(DELETING, Status.SHARING_VIOLATION), (LIST, Status.SUCCESS)])
def test_a_folder_that_somebody_may_delete(served: ServerProcess, connect: Connect, access: int, expected: Status) -> None:
    """Nothing gets a new name in it, as smbtorture's rename.share_delete_and_delete_access has it."""
    one, other = connect(served), connect(served)
    folder = other.open(create("folder", access=access, options=DIRECTORY_FILE))
    opened = one.open(create("file", access=DELETING))
    assert one.status(rename(opened, "folder\\file")) == expected
    other.ask(close(folder))
    assert one.status(rename(opened, "folder\\other")) == Status.SUCCESS


@pytest.mark.parametrize("access", [LIST, DELETING, 0x80])
def test_a_folder_with_something_open_in_it(served: ServerProcess, connect: Connect, access: int) -> None:
    """It keeps its name (MS-FSA 2.1.5.14.11)."""
    one, other = connect(served), connect(served)
    folder = one.open(create("folder", access=DELETING, options=DIRECTORY_FILE))
    one.ask(close(one.open(create("folder\\below", access=LIST, options=DIRECTORY_FILE))))
    opened = other.open(create("folder\\below\\file", access=access))
    assert one.status(rename(folder, "new")) == Status.ACCESS_DENIED
    other.ask(close(opened))
    assert one.status(rename(folder, "new")) == Status.SUCCESS
    assert one.status(create("new\\below\\file", disposition=OPEN)) == Status.SUCCESS


@pytest.mark.parametrize("closes, expected", [(True, Status.SUCCESS), (False, Status.ACCESS_DENIED)])
def test_a_folder_with_a_file_whose_handle_is_cached(served: ServerProcess, connect: Connect, closes: bool,
                                                     expected: Status) -> None:
    """It is asked for first."""
    one, holder = connect(served), connect(served)
    folder = one.open(create("folder", access=DELETING, options=DIRECTORY_FILE))
    opened = holder.open(leased("folder\\file", KEY, "RH"))
    number = one.send(rename(folder, "new"))
    assert (one.receive().status, holder.receive().number(92, 4)) == (Status.PENDING, 1)
    holder.ask(close(opened) if closes else acknowledgment(KEY, "R"))
    assert one.answer_to(number).status == expected
