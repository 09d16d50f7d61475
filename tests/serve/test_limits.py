"""Limits, what is answered past them, and what has none."""
from __future__ import annotations

import struct
import uuid
from pathlib import Path
from typing import TYPE_CHECKING

import pytest

from smblease import CreateAnswer, LeaseState, Status
from smblease.drive.headers import Message
from smblease.serve.create_parameters import DELETE_ON_CLOSE, OVERWRITE_IF
from smblease.serve.server_process import ServerProcess
from tests.serve.conftest import Connect, Start
from tests.serve.requests import KEY, close, create, frame, header, leased, read, set_info, write

if TYPE_CHECKING:
    from tests.serve.wire_client import WireClient

DELETING = 0x13019F

LIMIT = 1048576
END_OF_FILE = 20
MANY = 300


def contexts(message: Message) -> bytes:
    from tests.serve.wire_client import contexts_of  # pylint: disable=import-outside-toplevel
    return contexts_of(message)


def read_from(client: "WireClient", file_id: int, offset: int, length: int) -> bytes:
    """A READ with as many credits as it needs."""
    command, body = read(file_id, length)
    first = bytearray(header(command, client.number, client.session, client.tree))
    first[6:8] = (-(-length // 65536)).to_bytes(2, "little")
    client.stream.sendall(frame(bytes(first) + body[:8] + struct.pack("<Q", offset) + body[16:]))
    number, client.number = client.number, client.number + -(-length // 65536)
    return client.answer_to(number).data[80:]


def test_many_names(served: ServerProcess, connect: Connect) -> None:
    """More than a byte counts, open at once; each has its own bytes."""
    one = connect(served)
    opens = [one.open(create(f"name-{number}", access=DELETING)) for number in range(MANY)]
    assert {one.status(write(it, 0, f"{place:03}".encode())) for place, it in enumerate(opens)} == {Status.SUCCESS}
    assert [one.ask(read(it)).data[80:] for it in opens] == [f"{number:03}".encode() for number in range(MANY)]


def test_the_limit_of_a_file(start: Start, connect: Connect) -> None:
    one = connect(start("--limit", str(LIMIT)))
    file_id = one.open(create("file"))
    one.ask(write(file_id, 0, b"x"))
    assert one.status(write(file_id, LIMIT - 1, b"y")) == Status.SUCCESS
    assert one.status(write(file_id, LIMIT, b"z")) == Status.INVALID_PARAMETER
    assert one.status(write(file_id, 1 << 40, b"z")) == Status.INVALID_PARAMETER
    assert one.status(set_info(file_id, END_OF_FILE, struct.pack("<Q", LIMIT + 1))) == Status.INVALID_PARAMETER
    whole = read_from(one, file_id, 0, LIMIT)
    assert (len(whole), whole[:2], whole[-2:]) == (LIMIT, b"x\0", b"\0y")


def test_a_large_file(start: Start, connect: Connect, tmp_path: Path) -> None:
    """Bytes far behind what counts in 32 bits are written and read where they stand; between them is a hole."""
    one, place = connect(start("--folder", str(tmp_path), "--writable")), (1 << 33) + 5
    file_id = one.open(create("file"))
    assert one.status(write(file_id, place, b"far")) == Status.SUCCESS
    assert read_from(one, file_id, place - 2, 100) == b"\0\0far"
    assert (tmp_path / "file").stat().st_size == place + 3


@pytest.mark.parametrize("size, content", [
    pytest.param(10, b"\0\0\0bytes\0\0", id="up"), pytest.param(8, b"\0\0\0bytes", id="the_same"),
    pytest.param(5, b"\0\0\0by", id="down"), pytest.param(1 << 33, b"\0\0\0bytes" + bytes(92), id="far_up"),
])
def test_the_end_of_a_file(served: ServerProcess, connect: Connect, size: int, content: bytes) -> None:
    one = connect(served)
    file_id = one.open(create("file"))
    one.ask(write(file_id))
    assert one.status(set_info(file_id, END_OF_FILE, struct.pack("<Q", size))) == Status.SUCCESS
    assert one.ask(read(file_id)).data[80:] == content


def test_the_end_of_a_file_that_others_cache(served: ServerProcess, connect: Connect) -> None:
    """They give up what they cache, as for a write."""
    one, other = connect(served), connect(served)
    other.open(leased("file", KEY, "R"))
    file_id = one.open(create("file"))
    one.ask(write(file_id))
    assert other.receive().number(92, 4) == 0
    other.open(leased("file", KEY, "R"))
    assert one.status(set_info(file_id, END_OF_FILE, struct.pack("<Q", 1))) == Status.SUCCESS
    assert other.receive().number(92, 4) == 0


def test_many_clients(served: ServerProcess, connect: Connect) -> None:
    """More than a byte counts, all connected, each with a lease."""
    keys = [uuid.UUID(int=number + 1) for number in range(MANY)]
    there = [connect(served, key.bytes) for key in keys]
    states = {CreateAnswer.read(contexts(it.ask(leased(f"file-{key.int}", key, "RWH")))).state for it, key in zip(there, keys)}
    assert states == {LeaseState.of("RWH")}


def test_a_record_of_more_than_it_can_hold(start: Start, connect: Connect, tmp_path: Path) -> None:
    """Clients and files past the 255th, and writes past 1,048,576 bytes, are counted at its end; it is judged."""
    server = start("--folder", str(tmp_path), "--writable", record=tmp_path.parent / f"{tmp_path.name}.record")
    (tmp_path / "long").write_bytes(bytes(LIMIT + 1))
    one = connect(server)
    one.ask(write(one.open(leased("long", KEY, "RWH")), 0, b"x"))
    one.ask(write(one.open(create("file")), LIMIT, b"x"))
    for number in range(MANY):
        one.ask(close(one.open(create(f"name-{number}"))))
    for _ in range(256):
        connect(server).close()
    server.close()
    lines = (tmp_path.parent / f"{tmp_path.name}.record").read_text(encoding="utf-8").splitlines()
    assert lines[-3:] == ["# left out: 2 clients past number 255",
                          "# left out: 48 files past number 255, or of more than 1048576 bytes",
                          "# left out: 1 writes past 1048576 bytes"]
    assert server.verdict == "safe"


def test_names_that_come_and_go(served: ServerProcess, connect: Connect) -> None:
    """Files that are written to and deleted are gone, and their names begin empty."""
    one = connect(served)
    for number in range(MANY):
        file_id = one.open(create(f"name-{number % 7}", access=DELETING, options=DELETE_ON_CLOSE))
        assert one.status(write(file_id, 3, b"bytes")) == Status.SUCCESS, number
        assert one.ask(read(file_id)).data[80:] == b"\0\0\0bytes", number
        assert one.status(close(file_id)) == Status.SUCCESS


def test_a_name_that_is_overwritten(served: ServerProcess, connect: Connect) -> None:
    """Each time the file begins empty, and a shorter one has nothing of the one before it."""
    one = connect(served)
    for number in range(300):
        message = one.ask(create("name", disposition=OVERWRITE_IF))
        assert (message.status, message.number(112, 8)) == (Status.SUCCESS, 0), number
        file_id = message.number(128, 8)
        assert one.status(write(file_id, 300 - number, b"x")) == Status.SUCCESS, number
        assert one.ask(read(file_id, 4096)).data[80:] == bytes(300 - number) + b"x", number
        assert one.status(close(file_id)) == Status.SUCCESS
