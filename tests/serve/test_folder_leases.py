"""Leases of folders on the wire (3.3.5.9.11; Windows' order, as smbtorture's smb2.lease.v2_request has it)."""
from __future__ import annotations

import struct
import uuid
from collections.abc import Callable

import pytest

from smblease import Status
from smblease.drive.headers import Command
from smblease.serve.server_process import ServerProcess
from tests.python.version_bytes import PARENT_SET, Lease
from tests.serve.conftest import Start
from tests.serve.modern import EVERY, NEEDED, PASSWORD, USER, Modern
from tests.serve.modern_client import ModernClient
from tests.serve.negotiating import DIALECTS, Asking
from tests.serve.requests import Body, close, create, query_directory, read, rename, set_info, write
from tests.serve.second_versions import (FIRST, FOLDER, PARENT, RH, RW, RWH, SECOND, THIRD, R, acknowledgment, granted, lease_in,
                                         leasing, notice)

pytestmark = NEEDED
MAKES, OPENS, EMPTIES = 2, 1, 5
DELETING, DELETE = 0x1000, 0x13019F
ATTRIBUTES = 0x180
# how long nothing may come where nothing is to come
QUIET = 0.3
Change = Callable[[ModernClient, str], None]


def client_of(server: ServerProcess, modern: Modern, dialect: int = 0x0311) -> ModernClient:
    return modern(server, Asking((dialect,), guid=uuid.uuid4().bytes)).begin(USER, PASSWORD)


@pytest.fixture(name="folder")
def made_folder(every: ServerProcess, modern: Modern) -> str:
    """A new folder with files and a folder in it."""
    one, name = client_of(every, modern), f"folder {uuid.uuid4().hex[:8]}"
    for path, options in ((name, FOLDER), (f"{name}\\file", 0), (f"{name}\\other", 0), (f"{name}\\below", FOLDER)):
        assert one.status(close(one.open(create(path, disposition=MAKES, options=options)))) == Status.SUCCESS
    one.close()
    return name


def holding(server: ServerProcess, modern: Modern, name: str, state: int = RWH) -> ModernClient:
    """A client with a lease of the folder, by PARENT for a key and 10 for an epoch."""
    one = client_of(server, modern)
    lease = lease_in(one.ask(leasing(name, PARENT, state, 10, options=FOLDER)))
    assert lease == Lease(PARENT, state & RH, 0, 11)
    return one


@pytest.mark.parametrize("asked, expected", [(RWH, RH), (RW, R), (RH, RH), (R, R), (0, 0)])
def test_a_grant(every: ServerProcess, modern: Modern, folder: str, asked: int, expected: int) -> None:
    """W is never granted of a folder."""
    answer = client_of(every, modern).ask(leasing(folder, FIRST, asked, 5, SECOND, options=FOLDER))
    assert lease_in(answer) == Lease(FIRST, expected, PARENT_SET, 6, SECOND)


@pytest.mark.parametrize("name, dialect", list(DIALECTS.items()))
def test_dialects(every: ServerProcess, modern: Modern, folder: str, name: str, dialect: int) -> None:
    """Version 1 has no leases of folders, and dialects of 2 have none of version 2."""
    one = client_of(every, modern, dialect)
    assert not granted(one.ask(leasing(folder, FIRST, RWH, None, options=FOLDER)))
    assert (b"RqLs" in granted(one.ask(leasing(folder, SECOND, RWH, 1, options=FOLDER)))) is name.startswith("SMB3")


def test_a_folder_does_not_last(every: ServerProcess, modern: Modern, folder: str) -> None:
    answer = client_of(every, modern).ask(leasing(folder, FIRST, RH, 5, durable=b"g" * 16, options=FOLDER))
    assert set(granted(answer)) == {b"RqLs"}


def opening(path: str, disposition: int, options: int = 0) -> Change:
    def change(one: ModernClient, folder: str) -> None:
        assert one.status(create(f"{folder}\\{path}", disposition=disposition, options=options)) == Status.SUCCESS
    return change


def by_open(access: int, body: Callable[[int, str], Body], path: str = "file") -> Change:
    """Something that is done by an open of a file that is there."""
    def change(one: ModernClient, folder: str) -> None:
        opened = one.open(create(f"{folder}\\{path}", disposition=OPENS, access=access))
        assert one.status(body(opened, folder)) == Status.SUCCESS
    return change


def written(one: ModernClient, folder: str) -> None:
    opened = one.open(create(f"{folder}\\file", disposition=OPENS))
    assert one.status(write(opened)) == one.status(close(opened)) == Status.SUCCESS


def removed(one: ModernClient, folder: str) -> None:
    assert one.status(close(one.open(create(f"{folder}\\file", access=DELETE, options=DELETING)))) == Status.SUCCESS


def disposed(one: ModernClient, folder: str) -> None:
    opened = one.open(create(f"{folder}\\below", access=0x10080, options=FOLDER))
    assert one.status(set_info(opened, 13, b"\1")) == one.status(close(opened)) == Status.SUCCESS


def emptied(one: ModernClient, folder: str) -> None:
    assert one.status(close(one.open(create(f"{folder}\\file", disposition=EMPTIES)))) == Status.SUCCESS


def left(one: ModernClient, folder: str) -> None:
    """What is deleted as its client goes, without a CLOSE."""
    one.open(create(f"{folder}\\file", access=DELETE, options=DELETING))
    one.close()


CHANGES = {
    "a file is made": opening("new", disposition=MAKES), "a folder is made": opening("new", disposition=MAKES, options=FOLDER),
    "by its name in other letters": opening("NEW", disposition=3), "removed": removed, "a folder is removed": disposed,
    "removed by a client that goes": left,
    "renamed": by_open(DELETE, lambda opened, folder: rename(opened, f"{folder}\\new")),
    "renamed into it": by_open(DELETE, lambda opened, folder: rename(opened, f"{folder}\\below\\new")),
    "attributes": by_open(ATTRIBUTES, lambda opened, _: set_info(opened, 4, struct.pack("<QQQQLL", 0, 0, 0, 0, 2, 0))),
    "times": by_open(ATTRIBUTES, lambda opened, _: set_info(opened, 4, struct.pack("<QQQQLL", 0, 0, 1 << 57, 0, 0, 0))),
    "written": written, "emptied": emptied}


@pytest.mark.parametrize("change", CHANGES.values(), ids=CHANGES)
def test_changes(every: ServerProcess, modern: Modern, folder: str, change: Change) -> None:
    """Each has another client give up what it caches, by one break with the next epoch, which nobody waits for."""
    holder, other = holding(every, modern, folder), client_of(every, modern)
    change(other, folder)
    assert notice(holder.receive()) == (PARENT, RH, 0, 12)
    assert holder.status(acknowledgment(PARENT, 0)) == Status.SUCCESS
    assert not holder.has_more(QUIET)


def test_both_folders_of_a_rename(every: ServerProcess, modern: Modern, folder: str) -> None:
    holders = [holding(every, modern, it) for it in (folder, f"{folder}\\below")]
    by_open(DELETE, lambda opened, _: rename(opened, f"{folder}\\BELOW\\new"))(client_of(every, modern), folder)
    assert [notice(it.receive()) for it in holders] == [(PARENT, RH, 0, 12)] * 2


def looked_at(one: ModernClient, folder: str) -> None:
    listed = one.open(create(folder, access=0x81, disposition=OPENS, options=FOLDER))
    assert one.status(query_directory(listed)) == one.status(close(listed)) == Status.SUCCESS
    opened = one.open(create(f"{folder}\\file", disposition=OPENS))
    assert one.status(read(opened, 0)) == one.status(close(opened)) == Status.SUCCESS
    assert one.status(create(f"{folder}\\file", disposition=MAKES)) == Status.OBJECT_NAME_COLLISION
    assert one.status(create(f"{folder}\\file", options=FOLDER)) == Status.NOT_A_DIRECTORY
    assert one.status(create(f"{folder}\\none", disposition=OPENS)) == Status.OBJECT_NAME_NOT_FOUND


def changed_below(one: ModernClient, folder: str) -> None:
    opening("below\\new", disposition=MAKES)(one, folder)


def stream_made(one: ModernClient, folder: str) -> None:
    opened = one.open(create(f"{folder}\\file:stream", disposition=3))
    assert one.status(write(opened)) == one.status(close(opened)) == Status.SUCCESS


@pytest.mark.parametrize("harmless", [looked_at, changed_below, stream_made])
def test_what_changes_no_list(every: ServerProcess, modern: Modern, folder: str, harmless: Change) -> None:
    holder = holding(every, modern, folder)
    harmless(client_of(every, modern), folder)
    assert not holder.has_more(QUIET)


def test_the_key_of_the_parent(every: ServerProcess, modern: Modern, folder: str) -> None:
    """Who changes a folder by an open that names his lease of it keeps that, and others lose theirs (v2_request)."""
    holder, other = holding(every, modern, folder), holding(every, modern, folder)
    opened = holder.ask(leasing(f"{folder}\\new", FIRST, RWH, 5, PARENT, disposition=MAKES))
    assert lease_in(opened) == Lease(FIRST, RWH, PARENT_SET, 6, PARENT)
    assert notice(other.receive()) == (PARENT, RH, 0, 12)
    assert other.status(acknowledgment(PARENT, 0)) == Status.SUCCESS
    assert holder.status(write(opened.number(128, 8))) == holder.status(close(opened.number(128, 8))) == Status.SUCCESS
    assert not holder.has_more(QUIET) and holder.breaks == []


@pytest.mark.parametrize("parent", [None, THIRD])
def test_another_key(every: ServerProcess, modern: Modern, folder: str, parent: bytes | None) -> None:
    """Without the key of the lease its own client loses it too."""
    holder = holding(every, modern, folder)
    assert lease_in(holder.ask(leasing(f"{folder}\\new", FIRST, RWH, 5, parent, disposition=MAKES))).state == RWH
    assert [notice(it) for it in holder.breaks] == [(PARENT, RH, 0, 12)]


def test_another_client_that_names_the_key(every: ServerProcess, modern: Modern, folder: str) -> None:
    """The key is one of a client: who doesn't hold the lease spares nobody by its key."""
    holder = holding(every, modern, folder)
    client_of(every, modern).ask(leasing(f"{folder}\\new", FIRST, RWH, 5, PARENT, disposition=MAKES))
    assert notice(holder.receive()) == (PARENT, RH, 0, 12)


def test_what_is_written_shows_at_the_close(every: ServerProcess, modern: Modern, folder: str) -> None:
    holder, other = holding(every, modern, folder), client_of(every, modern)
    opened = other.open(create(f"{folder}\\file", disposition=OPENS))
    assert other.status(write(opened)) == Status.SUCCESS and not holder.has_more(QUIET)
    assert other.status(close(opened)) == Status.SUCCESS
    assert notice(holder.receive())[:3] == (PARENT, RH, 0)


def test_a_lease_that_is_taken_again(every: ServerProcess, modern: Modern, folder: str) -> None:
    """After the break, with the next epoch, and it is broken once more."""
    holder, other = holding(every, modern, folder), client_of(every, modern)
    opening("new", disposition=MAKES)(other, folder)
    holder.receive()
    assert holder.status(acknowledgment(PARENT, 0)) == Status.SUCCESS
    assert lease_in(holder.ask(leasing(folder, PARENT, RH, 12, options=FOLDER))) == Lease(PARENT, RH, 0, 13)
    opening("newer", disposition=MAKES)(other, folder)
    assert notice(holder.receive()) == (PARENT, RH, 0, 14)


def test_the_break_comes_before_the_change(every: ServerProcess, modern: Modern, folder: str) -> None:
    """Where its own client makes the change, the break is sent before the answer."""
    holder = holding(every, modern, folder)
    number = holder.send(create(f"{folder}\\new", disposition=MAKES))
    assert holder.receive().command is Command.OPLOCK_BREAK
    assert holder.answer_to(number).status == Status.SUCCESS


def test_a_key_of_a_file(every: ServerProcess, modern: Modern, folder: str) -> None:
    """One key is not for two (3.3.5.9.11)."""
    one = client_of(every, modern)
    assert lease_in(one.ask(leasing(f"{folder}\\file", FIRST, RWH, 1))).state == RWH
    assert one.status(leasing(folder, FIRST, RH, 1, options=FOLDER)) == Status.INVALID_PARAMETER
    assert lease_in(one.ask(leasing(folder, SECOND, RH, 1, options=FOLDER))).state == RH
    assert one.status(leasing(f"{folder}\\other", SECOND, RH, 1)) == Status.INVALID_PARAMETER
    assert lease_in(one.ask(leasing(folder, SECOND, RH, 1, options=FOLDER))) == Lease(SECOND, RH, 0, 2)


def test_who_deletes_or_renames_the_folder(every: ServerProcess, modern: Modern, folder: str) -> None:
    """Others give up handles first."""
    holder, other = holding(every, modern, f"{folder}\\below"), client_of(every, modern)
    opened = other.open(create(f"{folder}\\below", access=0x10080, options=FOLDER))
    number = other.send(rename(opened, f"{folder}\\elsewhere"))
    assert notice(holder.receive()) == (PARENT, RH, R, 12)
    assert holder.status(acknowledgment(PARENT, R)) == Status.SUCCESS
    assert other.answer_to(number).status == Status.SUCCESS


def test_a_record(start: Start, modern: Modern, tmp_path: object) -> None:
    """Folders aren't in it."""
    server = start(*EVERY, record=tmp_path / "record")  # type: ignore[operator]
    one, other = (client_of(server, modern) for _ in range(2))
    assert one.status(create("folder", disposition=MAKES, options=FOLDER)) == Status.SUCCESS
    assert lease_in(one.ask(leasing("folder", PARENT, RH, 10, options=FOLDER))).state == RH
    assert lease_in(one.ask(leasing("folder\\file", FIRST, RWH, 10, PARENT, disposition=MAKES))).state == RWH
    opening("new", disposition=MAKES)(other, "folder")
    assert notice(one.receive())[:3] == (PARENT, RH, 0)
    for client in (one, other):
        client.close()
    server.close()
    assert server.verdict == "safe"
