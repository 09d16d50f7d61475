"""A server in this process without sockets or clocks, and clients that hand it frames one by one: what comes of a frame is there
when it was given, in the order in which it was sent to any of them."""
from __future__ import annotations

import asyncio
import contextlib
import struct
from collections.abc import Iterator
from contextlib import contextmanager
from pathlib import Path
from typing import Any, List, Tuple

from smblease import Rules, Status
from smblease.drive.headers import ASYNC, Command, Message
from smblease.serve.asks import Asked
from smblease.serve.connection import Connection
from smblease.serve.disk import Disk
from smblease.serve.manager_host import ManagerHost, Task
from smblease.serve.namespace import Namespace
from smblease.serve.record import Record
from smblease.serve.server import Server
from smblease.serve.settings import Settings
from smblease.serve.streams import Streams
from tests.serve.requests import Body, header, negotiate, ntlm_tokens, session_setup, tree_connect

Sent = List[Tuple["FrameClient", Message]]


class NotingHost(ManagerHost):
    """It notes what it asks the manager: clients, tags and files, which the manager can be asked about. It follows versions,
    whether its server's clients know of that or not."""

    def __init__(self, rules: Rules, server: Server, _: bool = False) -> None:
        super().__init__(rules, server, has_versions=True)
        self.noted: list[tuple[int, int, int]] = []

    def _put(self, task: Task, asked: Asked) -> bool:
        is_decided = super()._put(task, asked)
        self.noted.append((asked.client.number, task.tag, asked.file))
        return is_decided

    def still_waiting(self) -> set[tuple[int, int, int]]:
        """What waits in the manager of all that was asked."""
        self.noted = [it for it in self.noted if self.manager.waiting(*it)]
        return set(self.noted)


class Transport(asyncio.Transport):  # pylint: disable=abstract-method  # a connection calls no more of it
    """What is written goes on a list that all have in common."""

    def __init__(self, client: FrameClient, sent: Sent) -> None:
        super().__init__({"peername": ("127.0.0.1", 1)})
        self._client, self._sent = client, sent
        self._is_open = True

    def set_write_buffer_limits(self, high: int | None = None, low: int | None = None) -> None:
        """Nothing is ever left to be written."""

    def pause_reading(self) -> None:
        """Nothing comes by itself."""

    def resume_reading(self) -> None:
        """Nor does it here."""

    def get_write_buffer_size(self) -> int:
        return 0

    def write(self, data: Any) -> None:
        place = 0
        while place < len(data):
            length, = struct.unpack_from(">L", data, place)
            self._sent.append((self._client, Message(bytes(data[place + 4:place + 4 + length]))))
            place += 4 + length

    def is_closing(self) -> bool:
        return not self._is_open

    def abort(self) -> None:
        self._is_open = False


class FrameClient:
    """A connection with a session of a guest and a tree."""

    def __init__(self, server: Server, guid: bytes, sent: Sent) -> None:
        self.guid = guid
        self.number = self.session = self.tree = 0
        self.connection = Connection(server)
        self.connection.connection_made(Transport(self, sent))
        self._sent = sent
        self._set_up(negotiate(guid))
        for token in ntlm_tokens("guest"):
            self.session = self._set_up(session_setup(token)).session
        self.tree = self._set_up(tree_connect()).tree

    def _set_up(self, body: Body) -> Message:
        self.give(body)
        client, message = self._sent.pop()
        assert client is self and message.status in (Status.SUCCESS, Status.MORE_PROCESSING_REQUIRED), hex(message.status)
        return message

    def give(self, body: Body) -> int:
        """One request; it is taken by itself, so that its answers aren't put together with others."""
        command, text = body
        # pylint: disable-next=protected-access  # `data_received` has answers go together
        self.connection._take(header(command, self.number, self.session, self.tree) + text)
        self.number += 1
        return self.number - 1

    def cancel(self, async_id: int) -> None:
        data = bytearray(header(Command.CANCEL, 0, self.session, 0, 0, ASYNC) + struct.pack("<HH", 4, 0))
        data[32:40] = async_id.to_bytes(8, "little")
        self.connection._take(bytes(data))  # pylint: disable=protected-access

    def cut(self) -> None:
        self.connection.connection_lost(None)


@contextmanager
def server_in(folder: Path, streams: Path, rules: Rules, record: str | None = None) -> Iterator[Server]:
    loop = asyncio.new_event_loop()
    with contextlib.closing(loop), contextlib.closing(Disk(str(folder))) as disk, \
            contextlib.closing(Disk(str(streams))) as apart, contextlib.closing(Record(record)) as facts:
        yield Server(Settings("share", rules=rules), loop, facts, Namespace(disk, Streams(apart)))
