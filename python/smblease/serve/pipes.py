"""The pipe srvsvc of the share IPC$ (MS-SMB2 3.3.5.9 to 3.3.5.15): a message is written, and its answer is read."""
from __future__ import annotations

import struct
from collections.abc import Callable
from dataclasses import dataclass
from typing import TYPE_CHECKING

from smblease import Status
from smblease.drive.headers import HEADER, Command, create_name
from smblease.serve.packets import Answer
from smblease.serve.request import Handlers, Request
from smblease.serve.status_error import StatusError

if TYPE_CHECKING:
    from smblease.serve.server import Server
    from smblease.serve.share_list import ShareList

NAME = "srvsvc"
TRANSCEIVE = 0x11C017
OPENED = 1
NORMAL = 0x80
MOST_PIPES = 16


@dataclass(eq=False)
class Pipe:
    shares: ShareList
    # what isn't read yet of the last answer
    unread: bytes = b""

    def send(self, message: bytes) -> None:
        if self.unread:
            raise StatusError(Status.PIPE_BUSY)
        self.unread = self.shares.answer(message)

    def receive(self, most: int) -> tuple[Status, bytes]:
        """As much as fits; what is left can be read next."""
        if not self.unread:
            raise StatusError(Status.PIPE_EMPTY)
        given, self.unread = self.unread[:most], self.unread[most:]
        return Status.BUFFER_OVERFLOW if self.unread else Status.SUCCESS, given


class Pipes(Handlers):
    """What requests of a tree connect to IPC$ get. Without impacket it has no pipe."""

    def __init__(self, server: Server) -> None:
        super().__init__(server)
        self.handlers: dict[Command | None, Callable[[Request], Answer]] = {
            Command.CREATE: self.open, Command.CLOSE: self.close, Command.FLUSH: self.flush, Command.READ: self.read,
            Command.WRITE: self.write, Command.IOCTL: self.transceive,
        }

    def open(self, request: Request) -> Answer:
        if create_name(request.message).lstrip("\\").lower() != NAME:
            raise StatusError(Status.OBJECT_NAME_NOT_FOUND)
        pipes = request.tree.pipes
        if len(pipes) == MOST_PIPES:
            raise StatusError(Status.INSUFFICIENT_RESOURCES)
        file_id = next(self._server.own_file_ids)
        pipes[file_id] = Pipe(_share_list(self._server.settings.share))
        body = struct.pack("<HBBL32xQQLLQQLL", 89, 0, 0, OPENED, 0, 0, NORMAL, 0, file_id, file_id, 0, 0)
        return Answer(Status.SUCCESS, body, opened=file_id)

    @staticmethod
    def _pipe(request: Request) -> Pipe:
        found = request.tree.pipes.get(request.file_id())
        if found is None:
            raise StatusError(Status.FILE_CLOSED)
        return found

    def close(self, request: Request) -> Answer:
        assert self._pipe(request)
        del request.tree.pipes[request.file_id()]
        return Answer(Status.SUCCESS, struct.pack("<HHL52x", 60, 0, 0))

    def flush(self, request: Request) -> Answer:
        assert self._pipe(request)
        return Answer(Status.SUCCESS, struct.pack("<HH", 4, 0))

    def write(self, request: Request) -> Answer:
        message = request.message
        length = message.number(HEADER + 4, 4)
        self._pipe(request).send(message.buffer(HEADER + 2, length))
        return Answer(Status.SUCCESS, struct.pack("<HHLLHH", 17, 0, length, 0, 0, 0) + b"\0")

    def read(self, request: Request) -> Answer:
        status, data = self._pipe(request).receive(request.message.number(HEADER + 4, 4))
        return Answer(status, struct.pack("<HBBLLL", 17, HEADER + 16, 0, len(data), 0, 0) + (data or b"\0"))

    def transceive(self, request: Request) -> Answer:
        """A write and a read in one (FSCTL_PIPE_TRANSCEIVE)."""
        message = request.message
        if message.number(HEADER + 4, 4) != TRANSCEIVE:
            raise StatusError(Status.INVALID_DEVICE_REQUEST)
        pipe = self._pipe(request)
        place, length, most = (message.number(HEADER + it, 4) for it in (24, 28, 44))
        pipe.send(message.part(place, length))
        status, data = pipe.receive(most)
        head = struct.pack("<HHL16sLLLLLL", 49, 0, TRANSCEIVE, message.part(HEADER + 8, 16), HEADER + 48, 0, HEADER + 48,
                           len(data), 0, 0)
        return Answer(status, head + data)


def _share_list(share: str) -> ShareList:
    try:
        from smblease.serve.share_list import ShareList as Found  # pylint: disable=import-outside-toplevel
    except ImportError:
        raise StatusError(Status.OBJECT_NAME_NOT_FOUND) from None
    return Found(share)
