"""Where lines of control come from: a descriptor, and a socket of its own."""
from __future__ import annotations

import asyncio
import contextlib
import os
import socket
from collections.abc import Callable, Iterator

from smblease.drive.faults import DriveFault, Usage

AT_ONCE = 1 << 16
# A line is shorter than that.
LONGEST = 1 << 12

Answers = Callable[[str], str]


class Lines:
    """Bytes as lines, each of which is answered by one."""

    def __init__(self, answers: Answers) -> None:
        self._answers = answers
        self._bytes = b""

    def answered(self, data: bytes) -> bytes:
        *lines, self._bytes = (self._bytes + data).split(b"\n")
        self._bytes = self._bytes[:LONGEST]
        return b"".join(self._answers(it.decode("utf-8", errors="replace")).encode() + b"\n" for it in lines)


class ControlDescriptor:
    def __init__(self, loop: asyncio.AbstractEventLoop, descriptor: int, answers: Answers) -> None:
        self._loop, self._descriptor, self._lines = loop, descriptor, Lines(answers)
        try:
            os.set_blocking(descriptor, False)
            loop.add_reader(descriptor, self._ready)
        except (OSError, ValueError) as fault:
            raise Usage(f"--control {descriptor}: {fault}") from None

    def _ready(self) -> None:
        try:
            data = os.read(self._descriptor, AT_ONCE)
        except BlockingIOError:
            return
        except OSError:
            data = b""
        if not data:
            self._loop.remove_reader(self._descriptor)
            return
        # A pipe that is only read from has nobody who hears.
        with contextlib.suppress(OSError):
            os.write(self._descriptor, self._lines.answered(data))


class ControlConnection(asyncio.Protocol):
    def __init__(self, answers: Answers) -> None:
        self._lines = Lines(answers)
        self._transport = asyncio.Transport()

    def connection_made(self, transport: asyncio.BaseTransport) -> None:
        assert isinstance(transport, asyncio.Transport)
        self._transport = transport

    def data_received(self, data: bytes) -> None:
        self._transport.write(self._lines.answered(data))


@contextlib.contextmanager
def control_socket(loop: asyncio.AbstractEventLoop, path: str | None, answers: Answers) -> Iterator[None]:
    """A socket of this name, which its owner alone may connect to. It is removed at the end."""
    if path is None:
        yield
        return
    listening = socket.socket(socket.AF_UNIX)
    try:
        before = os.umask(0o177)
        try:
            listening.bind(path)
        finally:
            os.umask(before)
    except OSError as fault:
        listening.close()
        raise DriveFault(f"{path}: {fault.strerror or fault}") from None
    made = loop.run_until_complete(loop.create_unix_server(lambda: ControlConnection(answers), sock=listening))
    try:
        yield
    finally:
        made.close()
        with contextlib.suppress(OSError):
            os.unlink(path)
