"""SMB 2.1 as a small server speaks it: one connection, its guest, and the bodies of its answers."""
from __future__ import annotations

import asyncio
import struct
from typing import Protocol

from smblease import CreateAnswer, Status
from smblease.drive.headers import ASYNC, FROM_SERVER, HEADER, UNASKED, Command, Unreadable
from smblease.serve.chance import Chance
from smblease.serve.ntlm import Authentication
from smblease.serve.packets import ERROR_BODY, LONGEST_TRANSFER, Frames, RequestMessage, Response, framed, split_compound
from smblease.serve.password_brake import PasswordBrake
from smblease.serve.spnego import offered

DIALECT, IS_GUEST, DISK, FULL_ACCESS, LEASE = 0x0210, 1, 1, 0x1F01FF, 0xFF
DONE = struct.pack("<HH", 4, 0)
CLOSED = struct.pack("<HHL52x", 60, 0, 0)


class Host(Protocol):
    """Whoever serves what connections bring."""

    def joined(self, connection: SmallConnection) -> None: ...

    def asked(self, connection: SmallConnection, message: RequestMessage) -> None: ...

    def lost(self, connection: SmallConnection) -> None: ...


def created(file_id: int, answer: CreateAnswer, length: int) -> bytes:
    contexts = answer.write()
    head = struct.pack("<HBBL32xQQLL", 89, LEASE if answer.key else 0, 0, 1, length, length, 0x80, 0)
    return head + struct.pack("<QQLL", file_id, file_id, HEADER + 88 if contexts else 0, len(contexts)) + (contexts or b"\0")


def read(data: bytes) -> bytes:
    return struct.pack("<HBBLLL", 17, HEADER + 16, 0, len(data), 0, 0) + data


def written(length: int) -> bytes:
    return struct.pack("<HHLLHH", 17, 0, length, 0, 0, 0) + b"\0"


class SmallConnection(asyncio.Protocol):
    """It has one session and one tree, and answers by itself what leases have nothing to do with."""

    def __init__(self, host: Host) -> None:
        self.guid = b""
        self._host = host
        self._frames = Frames()
        self._authentication = Authentication(None, True, PasswordBrake(), "", Chance())
        self._transport = asyncio.Transport()
        self._is_joined = False

    def connection_made(self, transport: asyncio.BaseTransport) -> None:
        assert isinstance(transport, asyncio.Transport)
        self._transport = transport

    def data_received(self, data: bytes) -> None:
        self._frames.add(data)
        frame = self._frames.next()
        while frame:
            for message in split_compound(frame):
                self._answer_or_ask(message)
            frame = self._frames.next()

    def eof_received(self) -> None:
        """The connection is closed with that."""

    def connection_lost(self, _: Exception | None) -> None:
        if self._is_joined:
            self._host.lost(self)

    def _answer_or_ask(self, message: RequestMessage) -> None:
        if message.command is Command.NEGOTIATE:
            self.guid, token = message.part(HEADER + 12, 16), offered()
            body = struct.pack("<HHHH16sLLLLQQHHL", 65, 1, DIALECT, 0, bytes(16), 6, *3 * [LONGEST_TRANSFER], 0, 0, HEADER + 64,
                               len(token), 0) + token
            self.answer(message, body)
        elif message.command is Command.SESSION_SETUP:
            self._log_in(message)
        elif message.command is Command.TREE_CONNECT:
            self.answer(message, struct.pack("<HBBLLL", 16, DISK, 0, 0, 0, FULL_ACCESS))
        elif message.command in (Command.ECHO, Command.LOGOFF, Command.TREE_DISCONNECT):
            self.answer(message, DONE)
        else:
            self._host.asked(self, message)

    def _log_in(self, message: RequestMessage) -> None:
        try:
            reply = self._authentication.reply(message.buffer(HEADER + 12, message.number(HEADER + 14, 2)))
        except Unreadable:
            self.refuse(message, Status.LOGON_FAILURE)
            return
        is_over = self._authentication.is_over
        body = struct.pack("<HHHH", 9, IS_GUEST if is_over else 0, HEADER + 8, len(reply)) + reply
        self._send(message, Status.SUCCESS if is_over else Status.MORE_PROCESSING_REQUIRED, body)
        if is_over:
            self._is_joined = True
            self._host.joined(self)

    def answer(self, message: RequestMessage, body: bytes, is_late: bool = False) -> None:
        self._send(message, Status.SUCCESS, body, is_late)

    def refuse(self, message: RequestMessage, status: int, is_late: bool = False) -> None:
        """An error, or word that the request is pending."""
        self._send(message, status, ERROR_BODY, is_late)

    def _send(self, message: RequestMessage, status: int, body: bytes, is_late: bool = False) -> None:
        """Whatever is late, or pending, has an AsyncId."""
        is_async = is_late or status == Status.PENDING
        self._put(Response(message.number(12, 2), status, message.identifier, max(1, message.credits_asked), 1, 1, body,
                           charge=message.charge, flags=FROM_SERVER | (ASYNC if is_async else 0),
                           async_id=message.identifier if is_async else None))

    def notify(self, body: bytes) -> None:
        """A break (2.2.23)."""
        self._put(Response(Command.OPLOCK_BREAK, Status.SUCCESS, UNASKED, 0, 0, 0, body))

    def _put(self, response: Response) -> None:
        if not self._transport.is_closing():
            self._transport.write(framed([response]))
