"""Frames, numbers of requests, compounds and contexts."""
from __future__ import annotations

import socket
import struct

import pytest
from hypothesis import given
from hypothesis import strategies as some

from smblease import CreateAnswer, LeaseState, Status, each_context
from smblease.drive.headers import RELATED, Command, Unreadable
from smblease.serve.create_parameters import OPEN
from smblease.serve.packets import Credits, Frames, split_compound
from smblease.serve.server_process import ServerProcess
from tests.serve.conftest import Connect
from tests.serve.requests import ECHO, EVERY_FILE_ID, KEY, close, compound, create, frame, header, leased, read, write

ECHO_HEADER = header(Command.ECHO, 0, 0, 0)
IN_ONE_FRAME = 1000


def test_numbers_of_requests() -> None:
    """Each once, none that wasn't given, and one at least where none is left (3.3.5.2.3)."""
    numbers = Credits()
    assert numbers.take(0, 1)
    assert not numbers.take(0, 1) and not numbers.take(1, 1)
    assert numbers.grant(3) == 3
    assert numbers.take(2, 2) and numbers.take(1, 1)
    assert not numbers.take(3, 1) and not numbers.take(4, 1)
    assert (numbers.grant(0), numbers.grant(0)) == (1, 1)


def test_frames_in_pieces() -> None:
    frames = Frames()
    frames.add(b"\0\0\0\3abc\0\0")
    assert (frames.next(), frames.next()) == (b"abc", None)
    frames.add(b"\0\1d")
    assert (frames.next(), frames.next()) == (b"d", None)


@pytest.mark.parametrize("data", [
    pytest.param(ECHO_HEADER[:63], id="a_short_header"), pytest.param(b"\xfdSMB" + ECHO_HEADER[4:], id="another_protocol"),
    pytest.param(header(Command.ECHO, 0, 0, 0, 1) + bytes(8), id="a_distance_of_1"),
    pytest.param(header(Command.ECHO, 0, 0, 0, 72) + bytes(8), id="a_distance_past_the_end"),
])
def test_unreadable(data: bytes) -> None:
    with pytest.raises(Unreadable):
        split_compound(data)


def test_a_compound(served: ServerProcess, connect: Connect) -> None:
    """CREATE, WRITE, READ and CLOSE in one frame, each by the FileId of the first (3.3.5.2.7.2)."""
    from tests.serve.wire_client import parts_of  # pylint: disable=import-outside-toplevel
    one = connect(served)
    bodies = [create("file"), write(EVERY_FILE_ID), read(EVERY_FILE_ID), close(EVERY_FILE_ID), close(EVERY_FILE_ID)]
    one.stream.sendall(compound(one.number, one.session, one.tree, bodies))
    answers = parts_of(one.receive())
    assert [it.command for it in answers] == [command for command, _ in bodies]
    assert [it.status for it in answers] == [Status.SUCCESS] * 4 + [Status.FILE_CLOSED]
    assert answers[2].part(80, 8) == b"\0\0\0bytes"


def test_a_compound_that_begins_with_another_request(served: ServerProcess, connect: Connect) -> None:
    """Each is by the FileId of the one before it, also where that isn't a CREATE (3.3.5.2.7.2)."""
    from tests.serve.wire_client import parts_of  # pylint: disable=import-outside-toplevel
    one = connect(served)
    kept, other = one.open(create("file")), one.open(create("other"))
    bodies = [write(kept), read(EVERY_FILE_ID), close(other), close(EVERY_FILE_ID)]
    one.stream.sendall(compound(one.number, one.session, one.tree, bodies))
    answers = parts_of(one.receive())
    assert [it.status for it in answers] == [Status.SUCCESS] * 3 + [Status.FILE_CLOSED]
    one.number += len(bodies)
    assert answers[1].part(80, 8) == b"\0\0\0bytes" and one.status(read(kept)) == Status.SUCCESS


def test_a_first_request_that_is_related(served: ServerProcess, connect: Connect) -> None:
    """It is refused, and so is what is related to it; nothing is done, and what comes in the next frame is (3.3.5.2.7.2)."""
    from tests.serve.wire_client import parts_of  # pylint: disable=import-outside-toplevel
    one = connect(served)
    bodies = [create("file"), write(EVERY_FILE_ID), close(EVERY_FILE_ID)]
    data = bytearray(compound(one.number, one.session, one.tree, bodies))
    data[4 + 16] |= RELATED
    one.stream.sendall(data)
    assert [it.status for it in parts_of(one.receive())] == [Status.INVALID_PARAMETER] * 3
    one.number += len(bodies)
    assert one.status(create("file", disposition=OPEN)) == Status.OBJECT_NAME_NOT_FOUND


def test_a_long_compound(served: ServerProcess, connect: Connect) -> None:
    """A thousand related requests in one frame, each answered."""
    from tests.serve.wire_client import parts_of  # pylint: disable=import-outside-toplevel
    one = connect(served)
    first = bytearray(header(Command.ECHO, one.number, one.session, one.tree))
    first[14:16] = (4096).to_bytes(2, "little")
    one.stream.sendall(frame(bytes(first) + ECHO[1]))
    one.receive()
    one.stream.sendall(compound(one.number + 1, one.session, one.tree, [ECHO] * IN_ONE_FRAME))
    assert [it.status for it in parts_of(one.receive())] == [Status.SUCCESS] * IN_ONE_FRAME


def test_contexts_of_a_reply(served: ServerProcess, connect: Connect) -> None:
    """The machine's contexts, and those that the shell adds."""
    from tests.serve.wire_client import contexts_of  # pylint: disable=import-outside-toplevel
    text = contexts_of(connect(served).ask(leased("file", KEY, "RWH", True)))
    assert CreateAnswer.read(text) == CreateAnswer(KEY, LeaseState.of("RWH"), durable=True)
    added = {it.name: it.data for it in each_context(text)}
    assert added[b"MxAc"] == struct.pack("<LL", 0, 0x1F01FF)
    assert len(added[b"QFid"]) == 32


@pytest.mark.parametrize("dialects, answered", [
    pytest.param(b"\x02NT LM 0.12\0\x02SMB 2.002\0\x02SMB 2.???\0", 0x02FF, id="with_SMB_2.???"),
    pytest.param(b"\x02NT LM 0.12\0", None, id="alone"),
])
def test_a_negotiate_of_smb_1(served: ServerProcess, dialects: bytes, answered: int | None) -> None:
    """The dialect that it is answered (3.3.5.3.1), or else the connection is closed."""
    with socket.create_connection((served.place.host, served.place.port)) as one:
        one.settimeout(20)
        one.sendall(frame(b"\xffSMB\x72" + bytes(27) + b"\0" + struct.pack("<H", len(dialects)) + dialects))
        data = one.recv(4096)
    assert (int.from_bytes(data[72:74], "little") if data else None) == answered


@given(some.lists(some.binary(max_size=40), max_size=5), some.lists(some.integers(1, 50), max_size=20))
def test_frames_however_they_are_cut(parts: list[bytes], cuts: list[int]) -> None:
    """What comes in any pieces is the frames that were sent, in order, and nothing more."""
    frames, data = Frames(), b"".join(map(frame, parts))
    found: list[bytes] = []
    for length in [*cuts, len(data)]:
        frames.add(data[:length])
        data = data[length:]
        found += iter(frames.next, None)
    assert found == parts


@given(some.lists(some.binary(max_size=30), min_size=1, max_size=5))
def test_requests_of_a_compound(bodies: list[bytes]) -> None:
    """Each is there, with the bytes up to the next one."""
    texts = [body + bytes(-len(body) % 8) for body in bodies]
    data = b"".join(header(Command.ECHO, place, 0, 0, 64 + len(it) if place < len(texts) - 1 else 0) + it
                    for place, it in enumerate(texts))
    assert [(it.identifier, it.data[64:]) for it in split_compound(data)] == list(enumerate(texts))


@given(some.binary(max_size=200))
def test_any_bytes(data: bytes) -> None:
    for text in (data, ECHO_HEADER[:12] + data, ECHO_HEADER + data):
        try:
            assert split_compound(text)
        except Unreadable:
            continue


def test_a_command_that_there_is_not(served: ServerProcess, connect: Connect) -> None:
    """It is refused like a request that can't be read: smbtorture's compound.invalid4."""
    one = connect(served)
    one.stream.sendall(frame(header(0xFF, one.number, one.session, one.tree) + ECHO[1]))
    assert one.receive().status == Status.INVALID_PARAMETER
