"""Files where they are on disk: names, links, what others do there, and a disk that refuses."""
from __future__ import annotations

import os
import struct
import sys
import tempfile
import time
from pathlib import Path
from typing import TYPE_CHECKING

import pytest

from smblease import Status
from smblease.drive.headers import Command, Message
from smblease.serve.create_parameters import CREATE, DELETE_ON_CLOSE, DIRECTORY_FILE, OPEN, OVERWRITE
from smblease.serve.server_process import ServerProcess
from tests import needs
from tests.paths import TOP
from tests.serve.conftest import Connect, Start
from tests.serve.requests import (KEY, OTHER_KEY, acknowledgment, close, create, flush, leased, query_directory, query_info, read,
                                  rename, set_info, write)

if TYPE_CHECKING:
    from tests.serve.wire_client import WireClient

DELETING = 0x13019F
LIST = 0x81
LARGEST_WRITE = 65536
BASIC, ALL_INFORMATION = 4, 18


@pytest.fixture
def folder(tmp_path: Path) -> Path:
    made = tmp_path / "folder"
    made.mkdir()
    return made


@pytest.fixture
def one(start: Start, connect: Connect, folder: Path) -> "WireClient":
    return connect(start("--folder", str(folder), "--writable"))


def listed(client: "WireClient", path: str = "") -> list[str]:
    """The names in a folder, by FileIdBothDirectoryInformation."""
    opened = client.open(create(path, access=LIST, disposition=OPEN, options=DIRECTORY_FILE))
    message = client.ask(query_directory(opened))
    client.ask(close(opened))
    data, names, place = message.part(72, message.number(68, 4)), [], 0
    while True:
        following, length = struct.unpack_from("<L", data, place)[0], struct.unpack_from("<L", data, place + 60)[0]
        names.append(data[place + 104:place + 104 + length].decode("utf-16le"))
        place += following
        if not following:
            return names


def content(client: "WireClient", path: str) -> bytes:
    opened = client.open(create(path, access=0x120089, disposition=OPEN))
    data = client.ask(read(opened, LARGEST_WRITE)).data[80:]
    client.ask(close(opened))
    return data


def end_of_file(message: Message) -> int:
    return message.number(112, 8)


def test_a_name_in_another_case(one: "WireClient", folder: Path) -> None:
    """It is the file, also within a folder; nothing is made anew."""
    (folder / "Below").mkdir()
    (folder / "Below/File.Txt").write_bytes(b"given")
    assert content(one, "bELOW\\fILE.tXT") == b"given"
    assert one.status(create("below\\FILE.TXT", disposition=CREATE)) == Status.OBJECT_NAME_COLLISION
    assert one.status(create("below\\new", disposition=CREATE)) == Status.SUCCESS
    assert sorted(os.listdir(folder / "Below")) == ["File.Txt", "new"]


def test_names_that_differ_in_case_alone(one: "WireClient", folder: Path) -> None:
    """Each is found by just its own."""
    for name in ("file", "FILE", "File"):
        (folder / name).write_bytes(name.encode())
    assert [content(one, name) for name in ("File", "file", "FILE")] == [b"File", b"file", b"FILE"]


def test_a_rename_that_changes_case_alone(one: "WireClient", folder: Path) -> None:
    opened = one.open(create("file", access=DELETING))
    assert one.status(rename(opened, "FILE", False)) == Status.SUCCESS
    assert os.listdir(folder) == ["FILE"]


def test_names_of_other_alphabets(one: "WireClient", folder: Path) -> None:
    (folder / "Straße Öl 日本 🗀").write_bytes(b"given")
    assert content(one, "STRAßE ÖL 日本 🗀") == b"given"
    assert listed(one)[2:] == ["Straße Öl 日本 🗀"]


def test_names_that_can_not_be_sent(program: str, connect: Connect, folder: Path) -> None:
    """They are left out of lists, with a line for each; a folder that has one isn't empty."""
    (folder / "below").mkdir()
    for name in (b"good", b"below/a:b", b"below/c\\d", b"below/e*", b"below/\xff", b"below/\x01"):
        Path(os.fsdecode(os.fsencode(folder) + b"/" + name)).write_bytes(b"")
    server = ServerProcess(program, words=["--folder", str(folder), "--writable"])
    one = connect(server)
    assert (listed(one), listed(one, "below")) == ([".", "..", "below", "good"], [".", ".."])
    opened = one.open(create("below", access=DELETING, disposition=OPEN, options=DIRECTORY_FILE))
    assert one.status(set_info(opened, 13, b"\1")) == Status.DIRECTORY_NOT_EMPTY
    server.close()
    assert (server.status, server.complaints.count("which is left out"), server.complaints.count("\n")) == (0, 5, 5)


def test_links(one: "WireClient", folder: Path, tmp_path: Path) -> None:
    """Nothing is read, written, made, deleted or put in their place by them, whichever part of a path they are."""
    (tmp_path / "secret").write_bytes(b"secret")
    (folder / "link").symlink_to(tmp_path / "secret")
    (folder / "up").symlink_to(tmp_path)
    (folder / "new").symlink_to(tmp_path / "made")
    assert listed(one) == [".", ".."]
    assert {one.status(create(name, disposition=OPEN)) for name in ("link", "new", "up")} == {Status.OBJECT_NAME_NOT_FOUND}
    assert {one.status(create(name, disposition=CREATE)) for name in ("link", "new", "up")} == {Status.OBJECT_NAME_COLLISION}
    for disposition in (OPEN, CREATE, OVERWRITE):
        assert one.status(create("up\\secret", disposition=disposition)) == Status.OBJECT_PATH_NOT_FOUND
    opened = one.open(create("file", access=DELETING))
    assert one.status(rename(opened, "up\\file")) == Status.OBJECT_PATH_NOT_FOUND
    assert one.status(rename(opened, "link")) == Status.OBJECT_NAME_COLLISION
    assert (tmp_path / "secret").read_bytes() == b"secret"
    assert sorted(os.listdir(tmp_path)) == ["folder", "secret"]
    assert sorted(os.listdir(folder)) == ["file", "link", "new", "up"]


def test_a_folder_that_becomes_a_link(one: "WireClient", folder: Path, tmp_path: Path) -> None:
    """What was opened in it stays what it was, and by its path nothing is found any more."""
    (folder / "below").mkdir()
    (tmp_path / "other").mkdir()
    (tmp_path / "other/file").write_bytes(b"secret")
    opened = one.open(create("below\\file", access=DELETING))
    one.ask(write(opened, 0, b"mine"))
    (folder / "below").rename(folder / "moved")
    (folder / "below").symlink_to(tmp_path / "other")
    assert one.ask(read(opened)).data[80:] == b"mine"
    assert one.status(create("below\\file", disposition=OPEN)) == Status.OBJECT_PATH_NOT_FOUND
    assert one.status(rename(opened, "here")) == Status.OBJECT_PATH_NOT_FOUND
    assert (tmp_path / "other/file").read_bytes() == b"secret"


def test_a_pipe(one: "WireClient", folder: Path) -> None:
    """Nobody waits for its other end."""
    os.mkfifo(folder / "pipe")
    assert one.status(create("pipe", disposition=OPEN)) == Status.OBJECT_NAME_NOT_FOUND
    assert listed(one) == [".", ".."]


def test_a_file_that_was_replaced_on_disk(one: "WireClient", folder: Path) -> None:
    """Who has it open has the old one; its deletion leaves the new one alone."""
    opened = one.open(create("file", access=DELETING))
    one.ask(write(opened, 0, b"old"))
    (folder / "new").write_bytes(b"new")
    (folder / "new").rename(folder / "file")
    assert (one.ask(read(opened)).data[80:], content(one, "file")) == (b"old", b"new")
    assert one.status(set_info(opened, 13, b"\1")) == Status.SUCCESS
    one.ask(close(opened))
    assert content(one, "file") == b"new"


def test_two_names_of_one_file(one: "WireClient", folder: Path) -> None:
    """To leases they are one file."""
    (folder / "first").write_bytes(b"")
    os.link(folder / "first", folder / "second")
    one.open(leased("first", KEY, "RWH"))
    number = one.send(create("second", disposition=OPEN))
    assert {one.receive().command, one.receive().command} == {Command.CREATE, Command.OPLOCK_BREAK}, "PENDING, and a break"
    one.send(acknowledgment(KEY, "RH"))
    assert one.answer_to(number).status == Status.SUCCESS


def test_what_is_on_disk_in_the_end(one: "WireClient", folder: Path) -> None:
    below = one.open(create("below", access=DELETING, options=DIRECTORY_FILE))
    opened = one.open(create("below\\file", access=DELETING))
    one.ask(write(opened, 0, b"bytes"))
    assert (folder / "below/file").read_bytes() == b"bytes"
    assert one.status(rename(opened, "moved")) == Status.SUCCESS
    assert one.status(set_info(below, 13, b"\1")) == Status.SUCCESS
    one.ask(close(below))
    assert os.listdir(folder) == ["moved"]
    one.ask(close(opened))
    one.ask(close(one.open(create("moved", access=DELETING, options=DELETE_ON_CLOSE))))
    assert os.listdir(folder) == []


def test_a_file_with_an_open_stream_is_renamed(one: "WireClient", folder: Path) -> None:
    """The stream is found by the new path. (A folder with something open in it keeps its name, see test_renames.py.)"""
    one.open(create("below", access=0x81, options=DIRECTORY_FILE))
    opened, stream = one.open(create("file", access=DELETING)), one.open(create("file:stream"))
    one.ask(write(stream, 0, b"stream"))
    assert one.status(rename(opened, "below\\moved")) == Status.SUCCESS
    assert content(one, "below\\moved:STREAM") == b"stream"
    assert one.status(set_info(opened, 13, b"\1")) == Status.SUCCESS
    one.ask(close(opened))
    assert os.listdir(folder / "below") == []
    assert one.status(read(stream)) == Status.SUCCESS


def test_attributes_and_times_that_the_disk_has(one: "WireClient", folder: Path) -> None:
    opened, time = one.open(create("file")), (11644473600 + 1000000000) * 10000000
    assert one.status(set_info(opened, BASIC, struct.pack("<QQQQLL", 0, time, time + 10, 0, 1, 0))) == Status.SUCCESS
    found = (folder / "file").stat()
    assert (found.st_atime_ns, found.st_mtime_ns, found.st_mode & 0o222) == (10 ** 18, 10 ** 18 + 1000, 0)
    told = one.ask(query_info(opened, ALL_INFORMATION)).part(72, 40)
    assert struct.unpack("<QQQ", told[8:24] + told[:8])[:2] == (time, time + 10) and told[32] == 0x01
    assert one.status(set_info(opened, BASIC, struct.pack("<QQQQLL", 0, 0, 0, 0, 0x80, 0))) == Status.SUCCESS
    assert (folder / "file").stat().st_mode & 0o200


def is_open_to_all(path: Path) -> bool:
    return all(it.stat().st_mode & 0o5 == 0o5 for it in (path, *path.parents))


@needs.ROOT
@needs.program("setpriv")
@pytest.mark.skipif(not is_open_to_all(TOP), reason="others may not read this repository")
def test_what_the_servers_user_may_not_do(start: Start, connect: Connect) -> None:
    """Whoever asks, it has the rights of its process: here a folder and its file may be read alone."""
    with tempfile.TemporaryDirectory() as name:
        Path(name).chmod(0o755)
        (Path(name) / "file").write_bytes(b"data")
        nobody = ("setpriv", "--reuid", "65534", "--regid", "65534", "--clear-groups", sys.executable)
        one = connect(start("--folder", name, "--writable", interpreter=nobody))
        assert content(one, "file") == b"data"
        opened = one.open(create("file", access=0x110080, disposition=OPEN))
        refused = [create("file"), create("file", access=0x120089, disposition=OVERWRITE), create("new", disposition=CREATE),
                   create("new", disposition=CREATE, options=DIRECTORY_FILE), set_info(opened, 13, b"\1"), rename(opened, "new"),
                   create("file", access=0x110080, disposition=OPEN, options=DELETE_ON_CLOSE)]
        assert [one.status(it) for it in refused] == [Status.ACCESS_DENIED] * len(refused)
        assert (Path(name) / "file").read_bytes() == b"data"


@pytest.fixture
def full(start: Start) -> ServerProcess:
    """A server whose files end at 100,000 bytes, where the disk takes what fits of a write and then no more."""
    return start(interpreter=("prlimit", "--fsize=100000", sys.executable))


@needs.program("prlimit")
@pytest.mark.parametrize("size", [80000, 90000, 100000])
def test_a_write_that_the_disk_takes_in_part(full: ServerProcess, connect: Connect, size: int) -> None:
    """It is refused, and changes no byte; leases are as they were after its breaks."""
    one, other = connect(full), connect(full)
    opened = one.open(create("file"))
    for place in range(0, size, 10000):
        assert one.status(write(opened, place, bytes([place // 10000]) * 10000)) == Status.SUCCESS
    before = content(one, "file")
    other.open(leased("file", KEY, "R"))
    assert one.status(write(opened, 70000, b"x" * 40000)) == Status.DISK_FULL
    assert other.receive().number(92, 4) == 0, "a break to none"
    assert (content(one, "file"), end_of_file(one.ask(create("file", disposition=OPEN)))) == (before, size)
    assert one.status(write(opened, 70000, b"x" * 30000)) == Status.SUCCESS


@needs.program("prlimit")
def test_what_else_the_disk_refuses(full: ServerProcess, connect: Connect) -> None:
    one = connect(full)
    opened = one.open(create("file"))
    assert one.status(write(opened, 100000, b"x")) == Status.DISK_FULL
    assert one.status(set_info(opened, 20, struct.pack("<Q", 100001))) == Status.DISK_FULL
    assert end_of_file(one.ask(create("file", disposition=OPEN))) == 0
    assert one.status(create("n" * 255)) == Status.SUCCESS
    assert one.status(create("ü" * 255)) == Status.OBJECT_NAME_INVALID


def test_a_flush(start: Start, connect: Connect) -> None:
    """The disk is waited for, and others are served meanwhile; where it fails, that is answered."""
    server = start(interpreter=(sys.executable, str(TOP / "tests/serve/odd_servers.py"), "slow"))
    one, other = connect(server), connect(server)
    opened, begun = one.open(create("file")), time.monotonic()
    number = one.send(flush(opened))
    assert other.status(write(other.open(create("file")), 0, b"x")) == Status.SUCCESS
    assert time.monotonic() - begun < 0.9
    assert one.answer_to(number).status == Status.SUCCESS
    assert time.monotonic() - begun > 0.9
    assert one.status(flush(opened)) == Status.IO_DEVICE_ERROR


def test_a_write_that_waits_is_cancelled(served: ServerProcess, connect: Connect) -> None:
    """It is taken back, and changes nothing."""
    holder, one, other = (connect(served) for _ in range(3))
    held = holder.open(leased("file", KEY, "RH"))
    holder.ask(write(held, 0, b"kept"))
    opened = one.open(create("file"))
    waits = other.send(leased("file", OTHER_KEY, "R"))
    assert other.answer_to(waits).status == Status.SUCCESS
    other.send(create("file", share=0))
    assert (other.receive().status, holder.receive().number(92, 4)) == (Status.PENDING, 1), "a break of RH to R"
    number = one.send(write(opened, 0, b"lost"))
    assert one.receive().status == Status.PENDING
    one.send_cancel(number)
    assert one.answer_to(number).status == Status.CANCELLED
    assert one.ask(read(opened)).data[80:] == b"kept"
