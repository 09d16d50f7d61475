"""Connections of drive/ to serve/run, of which somebody changes a frame on its way: each ends with a fault of the tool's own."""
from __future__ import annotations

import random
import time
from collections.abc import Iterator
from contextlib import closing
from dataclasses import replace

import pytest

for package in ("impacket", "cryptography"):
    pytest.importorskip(package, reason=f"there is no package {package}; tools/setup installs it")
# pylint: disable=wrong-import-position
from smblease.drive.connections import Connection  # noqa: E402
from smblease.drive.faults import DriveFault  # noqa: E402
from smblease.drive.headers import Command, Message  # noqa: E402
from smblease.drive.place import DRIVEN, Place  # noqa: E402
from smblease.serve.dialects import NAMES, Dialect  # noqa: E402
from smblease.serve.server_process import ServerProcess  # noqa: E402
from tests.drive.meddling import CLIENT, SERVER, meddled  # noqa: E402

USER, PASSWORD = "tester", "secret"
NEW = pytest.mark.parametrize("dialect", [name for name, it in NAMES.items() if it >= Dialect.SMB_3_0])
ENCRYPTS = pytest.mark.parametrize("encrypts", [False, True], ids=["signed", "encrypted"])
# in an answer to NEGOTIATE (2.2.4), and in a request (2.2.3)
SECURITY_MODE, SERVER_GUID, SERVER_CAPABILITIES, CLIENT_CAPABILITIES, CLIENT_GUID = 66, 72, 88, 72, 76


@pytest.fixture(scope="module")
def place(program: str) -> Iterator[Place]:
    server = ServerProcess(program, words=["--user", f"{USER}%{PASSWORD}", "--max", "3.1.1"], user=USER, password=PASSWORD)
    with closing(server):
        yield server.place


def speaking(place: Place, port: int, *dialects: Dialect, encrypts: bool = False) -> Connection:
    return Connection(replace(place, port=port, dialects=dialects, encrypts=encrypts), bytes(range(16)))


def flipped(data: bytes, bit: int) -> bytes:
    return data[:bit // 8] + bytes([data[bit // 8] ^ 1 << bit % 8]) + data[bit // 8 + 1:]


def echoes(connection: Connection, count: int) -> None:
    for _ in range(count):
        number = connection.echo()
        message = connection.receive(time.monotonic() + 20)
        assert message and message.number == number


@NEW
@ENCRYPTS
def test_nothing_is_changed(place: Place, dialect: str, encrypts: bool) -> None:
    with meddled(place.port, lambda sender, number, frame: frame) as port, \
            closing(speaking(place, port, NAMES[dialect], encrypts=encrypts)) as connection:
        connection.make_file(f"one {dialect} {encrypts}", b"x" * 100000)
        echoes(connection, 3)
        assert connection.dialect is NAMES[dialect]


class Spoiler:
    """Whoever changes a bit of each answer that comes from now on."""

    def __init__(self, chance: random.Random) -> None:
        self._chance = chance
        self.has_begun = False

    def __call__(self, sender: str, _: int, frame: bytes) -> bytes:
        if sender == CLIENT or not self.has_begun:
            return frame
        return flipped(frame, self._chance.randrange(8 * len(frame)))


@NEW
@ENCRYPTS
@pytest.mark.parametrize("_", range(4))
def test_answers_that_are_changed(place: Place, dialect: str, encrypts: bool, _: int, chooser: random.Random) -> None:
    """A bit of an answer, once the session is there."""
    change = Spoiler(chooser)
    with meddled(place.port, change) as port, closing(speaking(place, port, NAMES[dialect], encrypts=encrypts)) as connection:
        echoes(connection, 2)
        change.has_begun = True
        with pytest.raises(DriveFault):
            echoes(connection, 1)


@pytest.mark.parametrize("part", [SECURITY_MODE, SERVER_GUID, SERVER_CAPABILITIES, CLIENT_CAPABILITIES, CLIENT_GUID])
@NEW
def test_negotiation_that_is_changed(place: Place, dialect: str, part: int) -> None:
    """3.0 and 3.0.2 ask once more what was negotiated, and 3.1.1 has keys by it."""
    whose = CLIENT if part in (CLIENT_CAPABILITIES, CLIENT_GUID) else SERVER

    def change(sender: str, number: int, frame: bytes) -> bytes:
        # (SIGNING_REQUIRED, a bit of a GUID, or leases)
        return flipped(frame, 8 * part + 1) if (sender, number) == (whose, 0) else frame
    with meddled(place.port, change) as port, pytest.raises(DriveFault):
        speaking(place, port, NAMES[dialect])


def test_a_lower_dialect_than_both_speak(place: Place) -> None:
    """Whoever takes 3.1.1 out of what is offered is found, where the session is of another one of 3."""
    def change(sender: str, number: int, frame: bytes) -> bytes:
        if (sender, number) != (CLIENT, 0):
            return frame
        count = Message(frame).number(66, 2)
        last = 100 + 2 * (count - 1)
        assert frame[last:last + 2] == b"\x11\x03"
        return frame[:last] + b"\x00\x02" + frame[last + 2:]
    with meddled(place.port, change) as port, pytest.raises(DriveFault):
        speaking(place, port, *DRIVEN)


@pytest.mark.parametrize("_", range(60))
def test_bytes_that_a_server_makes_up(place: Place, _: int, chooser: random.Random) -> None:
    """Any answer to any of the messages that set a session up, of any length."""
    at, more, is_alike = chooser.randrange(5), chooser.randbytes(chooser.randrange(300)), chooser.random() < 0.7

    def change(sender: str, number: int, frame: bytes) -> bytes:
        return frame if (sender, number) != (SERVER, at) else frame[:64] * is_alike + more
    with meddled(place.port, change) as port, pytest.raises(DriveFault):
        with closing(speaking(place, port, *DRIVEN)) as connection:
            echoes(connection, 2)


def test_dialect_that_was_not_offered(place: Place) -> None:
    def change(sender: str, number: int, frame: bytes) -> bytes:
        is_answer = (sender, number) == (SERVER, 0) and Message(frame).command is Command.NEGOTIATE
        return frame[:68] + b"\x02\x02" + frame[70:] if is_answer else frame
    for dialects in ((Dialect.SMB_2_1,), DRIVEN):
        with meddled(place.port, change) as port, pytest.raises(DriveFault, match="SMB_2_0_2, which wasn't offered"):
            speaking(place, port, *dialects)
