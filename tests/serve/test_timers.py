"""Timers, and requests that wait."""
from __future__ import annotations

import struct
import time

import pytest

from smblease import CreateAsk, LeaseState, Status
from smblease.drive.faults import DriveFault
from smblease.drive.headers import ASYNC, Command
from smblease.serve.server_process import ServerProcess
from tests.serve.conftest import Connect, Start
from tests.serve.requests import KEY, acknowledgment, close, create, frame, header, leased, read


def test_a_break_that_nobody_acknowledges(start: Start, connect: Connect) -> None:
    """The create is told to wait at once, and answered when the timer ends."""
    server = start("--break-timer", "1")
    one, other = connect(server), connect(server)
    held = one.open(leased("file", KEY, "RWH"))
    begun = time.monotonic()
    number = other.send(create("file"))
    waits = other.receive()
    done = other.receive()
    assert (waits.status, done.status, done.identifier) == (Status.PENDING, Status.SUCCESS, number)
    assert waits.number(32, 8) == done.number(32, 8), "the AsyncId"
    assert 0.9 < time.monotonic() - begun < 5
    assert one.status(read(held)) == Status.FILE_CLOSED


def test_a_durable_open(start: Start, connect: Connect) -> None:
    """It is there for its client again, each time within its timer, and isn't any more once that has ended."""
    server, guid = start("--durable-timer", "1.5"), b"5" * 16
    one = connect(server, guid)
    number = one.open(create("file", level=0xFF, contexts=CreateAsk(KEY, LeaseState.of("RWH"), True).write()))
    again = create("file", level=0xFF, contexts=CreateAsk(KEY, reconnect=number).write())
    for seconds, expected in ((1.0, Status.SUCCESS), (1.0, Status.SUCCESS), (2.5, Status.OBJECT_NAME_NOT_FOUND)):
        one.close()
        time.sleep(seconds)
        one = connect(server, guid)
        assert one.status(again) == expected


def test_a_create_that_waits_is_cancelled(served: ServerProcess, connect: Connect) -> None:
    """The file isn't opened by it when its turn comes."""
    one, other = connect(served), connect(served)
    held = one.open(leased("file", KEY, "RWH"))
    number = other.send(create("file"))
    waits = other.receive()
    cancel = bytearray(header(Command.CANCEL, number, other.session, 0, 0, ASYNC))
    cancel[32:40] = waits.part(32, 8)
    other.stream.sendall(frame(bytes(cancel) + struct.pack("<HH", 4, 0)))
    assert (waits.status, other.receive().status) == (Status.PENDING, Status.CANCELLED)
    one.ask(acknowledgment(KEY, "RH"))
    one.ask(close(held))
    assert one.status(create("file", share=0)) == Status.SUCCESS


@pytest.mark.parametrize("line", ["", "expire", "expire 1 6", "expire one 61", "scavenge x", "scavenge 1 2", "expire 300 61 61"])
def test_a_line_of_control_that_is_refused(shared: ServerProcess, line: str) -> None:
    with pytest.raises(DriveFault, match="refused"):
        shared.tell(line)


@pytest.mark.parametrize("line", [f"expire 1 {KEY.hex}", f"expire 9 {KEY.hex}", "scavenge 1"])
def test_a_line_of_control_of_what_is_not_there(shared: ServerProcess, line: str) -> None:
    assert not shared.tell(line)


def test_a_line_of_control_ends_the_timer_of_a_break(served: ServerProcess, connect: Connect) -> None:
    one, other = connect(served), connect(served)
    one.open(leased("file", KEY, "RWH"))
    number = other.send(create("file"))
    assert other.receive().status == Status.PENDING
    assert served.tell(f"expire 1 {KEY.hex}")
    assert other.answer_to(number).status == Status.SUCCESS
