"""Connections that nobody works on: how long they are kept, and which of them goes where there are too many."""
from __future__ import annotations

import select
import socket
import time
from contextlib import ExitStack

import pytest

from smblease import Status
from smblease.drive.headers import Command
from smblease.serve.server_process import ServerProcess
from tests import needs
from tests.serve.conftest import Connect, Start
from tests.serve.requests import ECHO, create, frame, header, negotiate, read
from tests.serve.test_greedy_clients import is_closed, raw

LOGOFF = (Command.LOGOFF, b"\4\0\0\0")
# The most descriptors that a server has here.
LIMIT = 128


def said(server: ServerProcess, data: bytes) -> socket.socket:
    stream = raw(server)
    stream.sendall(data)
    return stream


@pytest.fixture(scope="module")
def impatient(start_for_all: Start) -> ServerProcess:
    return start_for_all("--session-timer", "0.3")


@pytest.mark.parametrize("data", [
    pytest.param(b"", id="nothing"), pytest.param(b"\0\0\1\0\xfeSMB", id="half_a_frame"),
    pytest.param(frame(header(Command.NEGOTIATE, 0, 0, 0) + negotiate(b"g" * 16)[1]), id="NEGOTIATE_alone"),
])
def test_a_connection_that_gets_no_session(impatient: ServerProcess, data: bytes) -> None:
    """It is closed after a time, whatever it said."""
    with said(impatient, data) as stream:
        while not is_closed(stream):
            pass


def test_a_connection_that_keeps_talking(impatient: ServerProcess) -> None:
    """Each request is answered, and it is closed all the same."""
    with said(impatient, frame(header(Command.NEGOTIATE, 0, 0, 0) + negotiate(b"g" * 16)[1])) as stream:
        number, until = 0, time.monotonic() + 20
        try:
            while stream.recv(65536) and time.monotonic() < until:
                number += 1
                stream.sendall(frame(header(Command.ECHO, number, 0, 0) + ECHO[1]))
                time.sleep(0.01)
        except ConnectionError:
            pass
        assert time.monotonic() < until


def test_a_connection_with_a_session(impatient: ServerProcess, connect: Connect) -> None:
    """It is kept as long as it has that, silent or not."""
    one = connect(impatient)
    opened = one.open(create("file"))
    time.sleep(0.8)
    assert one.status(read(opened)) == Status.END_OF_FILE
    assert one.status(LOGOFF) == Status.SUCCESS
    assert is_closed(one.stream)


@needs.program("prlimit")
def test_connections_past_the_descriptors(start: Start, connect: Connect) -> None:
    """The oldest silent one goes for each new one, and clients at work go on."""
    server = start(interpreter=("prlimit", f"--nofile={LIMIT}:{LIMIT}", "--"))
    one, idle = connect(server), connect(server)
    opened = one.open(create("file"))
    with ExitStack() as streams:
        silent = [streams.enter_context(said(server, b"")) for _ in range(2 * LIMIT)]
        other = connect(server)
        assert one.status(read(opened)) == Status.END_OF_FILE
        assert [other.status(create(f"file-{number}")) for number in range(8)] == [Status.SUCCESS] * 8
        assert idle.status(ECHO) == Status.SUCCESS
        closed = select.select(silent, [], [], 20)[0]
        assert silent[0] in closed and silent[-1] not in closed


@needs.program("prlimit")
def test_sessions_past_the_descriptors(start: Start, connect: Connect) -> None:
    """Where all have one, those go that have nothing open."""
    server = start(interpreter=("prlimit", f"--nofile={LIMIT}:{LIMIT}", "--"))
    one = connect(server)
    opened = one.open(create("file"))
    idle = [connect(server) for _ in range(40)]
    assert one.status(read(opened)) == Status.END_OF_FILE
    assert is_closed(idle[0].stream)
    assert idle[-1].status(ECHO) == Status.SUCCESS
