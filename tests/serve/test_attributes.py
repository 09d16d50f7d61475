"""Attributes and the time that a file was made, which are kept with it (MS-FSCC 2.4.7, 2.6; MS-FSA 2.1.5.1.2, 2.1.5.14.2)."""
from __future__ import annotations

import errno
import os
import struct
from pathlib import Path
from typing import TYPE_CHECKING, NamedTuple

import pytest

from smblease import Rules, Status
from smblease.drive.headers import Command, Message
from smblease.serve.create_parameters import CREATE, DELETE_ON_CLOSE, OPEN, OVERWRITE_IF
from smblease.serve.server_process import ServerProcess
from tests.serve.conftest import Connect, Start
from tests.serve.in_process import FrameClient, Sent, server_in
from tests.serve.requests import Body, close, create, query_directory, query_info, set_info

if TYPE_CHECKING:
    from tests.serve.wire_client import WireClient

READ_ONLY, HIDDEN, SYSTEM, FOLDER, ARCHIVE, NORMAL, TEMPORARY = 0x1, 0x2, 0x4, 0x10, 0x20, 0x80, 0x100
BASIC, ALL_INFORMATION = 4, 18
TIME = (11644473600 + 1000000000) * 10000000
LIST = create("", access=0x81, disposition=OPEN, options=1)


class Told(NamedTuple):
    created: int
    attributes: int


def basic(attributes: int, created: int = 0) -> bytes:
    return struct.pack("<QQQQLL", created, 0, 0, 0, attributes, 0)


def with_attributes(body: Body, attributes: int) -> Body:
    command, text = body
    return command, text[:28] + struct.pack("<L", attributes) + text[32:]


def by_create(message: Message) -> Told:
    return Told(message.number(72, 8), message.number(120, 4))


def everywhere(client: "WireClient", name: str, options: int = 0) -> set[Told]:
    """What is told of a file at its CREATE and its CLOSE, by QUERY_INFO and in the list of its folder."""
    looked = client.ask(create(name, access=0x80, disposition=OPEN, options=options))
    opened, folder = looked.number(128, 8), client.open(LIST)
    information = client.ask(query_info(opened, ALL_INFORMATION))
    entry = client.ask(query_directory(folder, name))
    closed = client.ask(close(opened))
    client.ask(close(folder))
    return {by_create(looked), Told(information.number(72, 8), information.number(104, 4)),
            Told(entry.number(80, 8), entry.number(128, 4)), Told(closed.number(72, 8), closed.number(120, 4))}


def test_what_is_to_be_read_alone_and_to_be_deleted(shared: ServerProcess, connect: Connect) -> None:
    """Nothing is made like that (MS-FSA 2.1.5.1.1)."""
    one = connect(shared)
    made = with_attributes(create("contrary", access=0x10080, disposition=CREATE, options=DELETE_ON_CLOSE), READ_ONLY)
    assert one.status(made) == Status.CANNOT_DELETE
    assert one.status(create("contrary", disposition=OPEN)) == Status.OBJECT_NAME_NOT_FOUND


@pytest.mark.parametrize("attributes, told", [
    (HIDDEN, HIDDEN), (SYSTEM | HIDDEN, SYSTEM | HIDDEN), (NORMAL, NORMAL), (ARCHIVE, ARCHIVE), (READ_ONLY, READ_ONLY),
    (READ_ONLY | HIDDEN, READ_ONLY | HIDDEN), (TEMPORARY, TEMPORARY), (0x2000 | NORMAL, 0x2000),
])
def test_attributes_that_are_set(shared: ServerProcess, connect: Connect, attributes: int, told: int) -> None:
    """They are these and no others, also a second time, and where the file may only be read."""
    one, name = connect(shared), f"set-{attributes:x}"
    opened = one.open(create(name))
    assert {it.attributes for it in everywhere(one, name)} == {ARCHIVE}
    for wanted in (attributes, READ_ONLY | SYSTEM, attributes):
        assert one.status(set_info(opened, BASIC, basic(wanted))) == Status.SUCCESS
    assert {it.attributes for it in everywhere(one, name)} == {told}
    assert one.status(set_info(opened, BASIC, basic(0))) == Status.SUCCESS
    assert {it.attributes for it in everywhere(one, name)} == {told}


@pytest.mark.parametrize("attributes, told", [(HIDDEN, HIDDEN), (READ_ONLY, READ_ONLY), (NORMAL, 0), (ARCHIVE | SYSTEM, 0x24)])
def test_attributes_of_a_folder(shared: ServerProcess, connect: Connect, attributes: int, told: int) -> None:
    one, name = connect(shared), f"folder-{attributes:x}"
    opened = one.open(create(name, access=0x180, options=1))
    assert one.status(set_info(opened, BASIC, basic(attributes))) == Status.SUCCESS
    assert {it.attributes for it in everywhere(one, name)} == {told | FOLDER}


@pytest.mark.parametrize("options, attributes", [(0, FOLDER), (1, TEMPORARY)])
def test_attributes_that_it_can_not_have(shared: ServerProcess, connect: Connect, options: int, attributes: int) -> None:
    one = connect(shared)
    opened = one.open(create(f"refused-{options}", access=0x180, options=options))
    assert one.status(set_info(opened, BASIC, basic(attributes))) == Status.INVALID_PARAMETER


def test_the_time_that_a_file_was_made(shared: ServerProcess, connect: Connect) -> None:
    one = connect(shared)
    opened = one.open(create("made"))
    for time, told in ((TIME, TIME), (TIME + 7, TIME + 7), ((1 << 64) - 1, TIME + 7), (0, TIME + 7)):
        assert one.status(set_info(opened, BASIC, basic(0, time))) == Status.SUCCESS
        assert everywhere(one, "made") == {Told(told, ARCHIVE)}


def test_what_a_create_makes(shared: ServerProcess, connect: Connect) -> None:
    """A file that is made or overwritten has "archive" too."""
    one = connect(shared)
    made = one.ask(with_attributes(create("by create"), HIDDEN))
    assert by_create(made).attributes == HIDDEN | ARCHIVE
    assert by_create(one.ask(with_attributes(create("folder by create", options=1), HIDDEN))).attributes == HIDDEN | FOLDER
    again = create("by create", disposition=OVERWRITE_IF)
    assert one.status(with_attributes(again, ARCHIVE)) == Status.ACCESS_DENIED, "it is hidden"
    assert by_create(one.ask(with_attributes(again, HIDDEN | SYSTEM))).attributes == HIDDEN | SYSTEM | ARCHIVE


def test_they_stay_with_the_file(start: Start, connect: Connect, tmp_path: Path) -> None:
    """Also for the next server."""
    for disposition in (OVERWRITE_IF, OPEN):
        one = connect(start("--folder", str(tmp_path), "--writable"))
        opened = one.open(with_attributes(create("file", disposition=disposition), HIDDEN))
        if disposition == OVERWRITE_IF:
            assert one.status(set_info(opened, BASIC, basic(HIDDEN, TIME))) == Status.SUCCESS
        assert everywhere(one, "file") == {Told(TIME, HIDDEN)}
        one.close()


def test_where_nothing_can_be_kept(tmp_path: Path, monkeypatch: pytest.MonkeyPatch) -> None:
    """What can't be kept is refused, and nothing of that request is done; what is so already is granted."""
    share, streams = tmp_path / "share", tmp_path / "streams"
    share.mkdir()
    streams.mkdir()
    sent: Sent = []

    def refused(*_: object, **__: object) -> None:
        raise OSError(errno.ENOTSUP, os.strerror(errno.ENOTSUP))
    with server_in(share, streams, Rules()) as server:
        one = FrameClient(server, b"g" * 16, sent)

        def status(body: Body) -> int:
            one.give(body)
            return sent[-1][1].status
        assert status(create("file")) == Status.SUCCESS
        opened = sent[-1][1].number(128, 8)
        monkeypatch.setattr(os, "setxattr", refused)
        bodies = [set_info(opened, BASIC, basic(it)) for it in (HIDDEN, NORMAL, SYSTEM | READ_ONLY)]
        bodies += [set_info(opened, BASIC, basic(0, TIME)), with_attributes(create("hidden"), HIDDEN)]
        assert [status(it) for it in bodies] == [Status.NOT_SUPPORTED] * len(bodies)
        assert os.listdir(share) == ["file"] and (share / "file").stat().st_mode & 0o200
        granted = [set_info(opened, BASIC, basic(it)) for it in (ARCHIVE, 0)]
        granted += [with_attributes(create("plain"), NORMAL), (Command.ECHO, struct.pack("<HH", 4, 0))]
        assert [status(it) for it in granted] == [Status.SUCCESS] * len(granted)
        one.cut()
