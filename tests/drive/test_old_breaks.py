"""What the driver makes of breaks that come in another order than they were made: over a connection whose messages the test
makes up."""
from __future__ import annotations

import random
import struct
import uuid
from collections import deque

import pytest

from smblease.drive.exchange import Exchange
from smblease.drive.faults import DriveFault
from smblease.drive.peers import DrivenPeer
from smblease.drive.received import NOTIFICATION_ID, FileId, Message
from smblease.drive.wire_names import WireNames
from smblease.replies import Break
from smblease.requests import Request
from smblease.serve.dialects import Dialect

GUID = uuid.UUID("11111111-1111-1111-1111-111111111111")
RWH, RH, R, NONE = 7, 3, 1, 0


class MadeUp:
    """A connection over which these notices come, each before the answer to an ECHO."""

    def __init__(self, dialect: Dialect, *notices: bytes) -> None:
        self.dialect = dialect
        self._notices, self._waiting = deque(notices), deque[Message]()
        self._number = 0

    def send(self, request: Request, name: str, file_id: FileId) -> int:
        raise AssertionError(f"nothing is sent: {request} {name} {file_id}")

    def echo(self) -> int:
        self._number += 1
        if self._notices:
            self._waiting.append(Message(NOTIFICATION_ID, 0, self._notices.popleft()))
        self._waiting.append(Message(self._number, 0, b""))
        return self._number

    def receive(self, _: float) -> Message | None:
        return self._waiting.popleft()


def notice(epoch: int, current: int, new: int) -> bytes:
    """Of the client's first file, to be acknowledged (2.2.23.2)."""
    key = GUID.bytes[:12] + struct.pack("<L", 1)
    return struct.pack("<HHL16sLL12x", 44, epoch, 1, key, current, new)


def settled(dialect: Dialect, *notices: bytes) -> tuple[DrivenPeer, list[bytes], list[int]]:
    """A client, the breaks that its machine is given, and to whom one came that isn't taken."""
    peer = DrivenPeer(GUID)
    peer.is_connected(MadeUp(dialect, *notices))  # type: ignore[arg-type]
    exchange = Exchange({1: peer}, WireNames(bytes(16)))
    breaks = [it.reply.message for it in exchange.settled() if isinstance(it.reply, Break)]
    assert [it.message for it in peer.replies if isinstance(it, Break)] == breaks
    return peer, breaks, exchange.passed_over()


def test_in_order() -> None:
    """The machine is given no epochs, which version 1 doesn't have."""
    _, breaks, passed = settled(Dialect.SMB_3_1_1, notice(1, RWH, RH), notice(2, RH, R), notice(2, R, NONE))
    assert (breaks, passed) == ([notice(0, RWH, RH), notice(0, RH, R), notice(0, R, NONE)], [])


def test_another_order() -> None:
    """The older one isn't taken, and the server waits until its timer runs out."""
    came = notice(65535, RWH, RH), notice(1, RH, NONE), notice(0, RH, R), notice(1, RH, R)
    peer, breaks, passed = settled(Dialect.SMB_3_0, *came)
    assert (breaks, passed) == ([notice(0, RWH, RH), notice(0, RH, NONE)], [1, 1])
    assert list(peer.breaking) == [1]


def test_at_2_1() -> None:
    """Epochs say nothing there, and go on as they came."""
    came = [notice(9, RWH, RH), notice(3, RH, R)]
    assert settled(Dialect.SMB_2_1, *came)[1:] == (came, [])


@pytest.mark.parametrize("dialect", [Dialect.SMB_2_1, Dialect.SMB_3_1_1])
def test_what_is_no_break(dialect: Dialect, chooser: random.Random) -> None:
    whole = notice(5, RWH, RH)
    for length in range(len(whole)):
        with pytest.raises(DriveFault, match="is no break of a lease"):
            settled(dialect, whole[:length])
    for _ in range(200):
        with pytest.raises(DriveFault, match="is no break of a lease"):
            settled(dialect, chooser.randbytes(2).replace(b"\x2c", b"\x2d") + whole[2:])
