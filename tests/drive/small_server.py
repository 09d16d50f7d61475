"""A small SMB 2.1 server over a manager of leases, as somebody makes it who follows examples/python/file_server.py. With
`--mistake` it makes one of those that are easily made.

    small_server.py [--mistake NAME] [--rules RULES] [--break-timer S]

It prints `port N`, and serves guests in one folder, which is gone with it.
"""
from __future__ import annotations

import argparse
import asyncio
import os
import re
import sys
import tempfile
from dataclasses import dataclass
from enum import Enum
from pathlib import Path

TOP = Path(__file__).resolve().parent.parent.parent
sys.path[:0] = [str(TOP), str(TOP / "python"), str(TOP / "examples" / "python")]

# pylint: disable=wrong-import-position
from file_server import FileServer, Handle, Request  # noqa: E402

from smblease import Access, Acknowledgment, CreateAnswer, CreateAsk, Fault, LeaseState, Manager, Share, Status  # noqa: E402
from smblease.drive.headers import HEADER, Command, create_name  # noqa: E402
from smblease.manager_decisions import (Acknowledged, Breaks, Closed, Decision, Ended, GoesOn, LeftBehind,  # noqa: E402
                                        NotAcknowledged, Opened, Refused, Waits)
from smblease.serve.packets import RequestMessage  # noqa: E402
from smblease.values import LARGEST_FILE, Rules  # noqa: E402
from tests.drive.small_wire import CLOSED, SmallConnection, created, read, written  # noqa: E402

LATE = 0.08
READS, WRITES, DELETES = 1, 2, 0x10000
CREATE, DELETE_ON_CLOSE = 2, 0x1000
# where a request has its FileId
FILE_ID = {Command.READ: 16, Command.WRITE: 16, Command.CLOSE: 8}


class Mistake(Enum):
    UNASKED_WRITES = "writes aren't asked of the manager"
    EARLY_DISK = "the disk is written before the decision"
    LATE_BREAKS = "breaks go out 80 ms late"
    UNSEEN_CUTS = "the manager isn't given word of a lost connection"
    KEPT_OPENS = "opens that ended are kept"
    NO_ACKNOWLEDGMENT = "every acknowledgment is taken for one of no lease"


@dataclass
class WireRequest(Request):
    """A request with the message that has to be answered, and its bytes."""

    connection: SmallConnection | None = None
    message: RequestMessage | None = None
    data: bytes = b""
    is_late: bool = False

    def answer(self, body: bytes) -> None:
        if self.connection and self.message:
            self.connection.answer(self.message, body, self.is_late)

    def refuse(self, status: int) -> None:
        if self.connection and self.message:
            self.connection.refuse(self.message, status, self.is_late)


class SmallServer(FileServer):
    def __init__(self, folder: str, rules: Rules, break_timer: float, mistake: Mistake | None) -> None:
        super().__init__(folder, Manager(rules))
        self._requests: dict[tuple[int, int], WireRequest] = {}
        self._clients: dict[bytes, int] = {}
        self._connections: dict[int, SmallConnection] = {}
        self._tags = 0
        self._break_timer = break_timer
        self._mistake = mistake
        # acknowledgments have no tags, and are decided at once
        self._acknowledging: WireRequest | None = None

    def number_of(self, name: str) -> int:
        if not re.fullmatch("[A-Za-z0-9_.-]{1,100}", name):
            raise ValueError("a name is of letters, digits, _, . and -")
        if name not in self.names:
            self.names.append(name)
        return self.names.index(name) + 1

    # ---- what comes ----

    def joined(self, connection: SmallConnection) -> None:
        client = self._clients.setdefault(connection.guid, len(self._clients) + 1)
        self._connections[client] = connection
        self.manager.join(client)

    def lost(self, connection: SmallConnection) -> None:
        client = self._clients[connection.guid]
        if self._connections.get(client) is not connection:
            return
        del self._connections[client]
        if self._mistake is not Mistake.UNSEEN_CUTS:
            self._requests = {it: request for it, request in self._requests.items() if it[0] != client}
            self.after(self.manager.cut(client))

    def asked(self, connection: SmallConnection, message: RequestMessage) -> None:
        client = self._clients[connection.guid]
        request = WireRequest("", "", connection=connection, message=message)
        if message.command is Command.OPLOCK_BREAK:
            self._acknowledge(client, request, message.data[HEADER:])
        elif message.command is Command.CREATE:
            self._create(client, request, message)
        elif message.command in FILE_ID:
            self._use(client, request, message)
        else:
            request.refuse(Status.NOT_SUPPORTED)

    def _tag(self, client: int, request: WireRequest) -> int:
        self._tags += 1
        self._requests[client, self._tags] = request
        return self._tags

    def _create(self, client: int, request: WireRequest, message: RequestMessage) -> None:
        """Files are made and removed with no lease. Whatever else opens them is asked of the manager."""
        name, access, share = create_name(message), message.number(HEADER + 24, 4), message.number(HEADER + 32, 4)
        number, path = self.number_of(name), f"{self.folder}/{name}"
        if message.number(HEADER + 36, 4) == CREATE:
            os.close(os.open(path, os.O_CREAT | os.O_EXCL, 0o600))
        elif message.number(HEADER + 40, 4) & DELETE_ON_CLOSE:
            os.unlink(path)
            request.answer(created(0, CreateAnswer(), 0))
            return
        request.file = name
        if not os.path.exists(path):
            request.refuse(Status.OBJECT_NAME_NOT_FOUND)
            return
        length = message.number(HEADER + 52, 4)
        try:
            ask = CreateAsk.read(message.part(message.number(HEADER + 48, 4), length) if length else b"")
        except Fault as fault:
            request.refuse(fault.status)
            return
        tag = self._tag(client, request)
        self.after(self.manager.create(client, tag, number, Access(access & (READS | WRITES)), Share(share & 3), ask))

    def _use(self, client: int, request: WireRequest, message: RequestMessage) -> None:
        place = HEADER + FILE_ID[Command(message.command or 0)]
        request.file_id = message.number(place, 8)
        if message.command is Command.CLOSE and not request.file_id:
            request.answer(CLOSED)
            return
        request.offset = message.number(HEADER + 8, 8)
        request.length = message.number(HEADER + 4, 4)
        if message.command is Command.WRITE:
            request.word = "write"
            request.data = message.buffer(HEADER + 2, request.length)
            self._write(client, request)
        elif message.command is Command.READ:
            request.word = "read"
            self.after(self.manager.read(client, self._tag(client, request), request.file_id))
        else:
            request.word = "close"
            self.after(self.manager.close_open(client, self._tag(client, request), request.file_id))

    def _write(self, client: int, request: WireRequest) -> None:
        is_open = request.file_id in self.handles
        if is_open and self._mistake is Mistake.UNASKED_WRITES:
            self.go_on(request)
            return
        if is_open and self._mistake is Mistake.EARLY_DISK:
            os.pwrite(self.handles[request.file_id].descriptor, request.data, request.offset)
        fits = request.offset + len(request.data) <= LARGEST_FILE
        self.after(self.manager.write(client, self._tag(client, request), request.file_id, fits=fits))

    def _acknowledge(self, client: int, request: WireRequest, data: bytes) -> None:
        self._acknowledging = request
        try:
            given = Acknowledgment.read(data)
        except Fault:
            self.after(self.manager.acknowledge_malformed(client))
            return
        if self._mistake is Mistake.NO_ACKNOWLEDGMENT:
            given = Acknowledgment(given.key, LeaseState.NONE)
        self.after(self.manager.acknowledge(client, given))

    # ---- decisions ----

    def go_on(self, request: Request) -> None:
        assert isinstance(request, WireRequest)
        descriptor = self.handles[request.file_id].descriptor
        if request.word == "write":
            os.pwrite(descriptor, request.data, request.offset)
            request.answer(written(len(request.data)))
            return
        data = os.pread(descriptor, request.length, request.offset)
        if data:
            request.answer(read(data))
        else:
            request.refuse(Status.END_OF_FILE)

    def carry_out(self, decision: Decision) -> None:
        if isinstance(decision, Breaks):
            self._break(decision)
        elif isinstance(decision, (Acknowledged, NotAcknowledged)):
            self._acknowledged(decision)
        elif isinstance(decision, Ended):
            if self._mistake is not Mistake.KEPT_OPENS:
                os.close(self.handles.pop(decision.file_id).descriptor)
        elif isinstance(decision, LeftBehind):
            # (no schedule waits as long as its timer)
            return
        elif isinstance(decision, Waits):
            waiting = self._requests[decision.client, decision.tag]
            waiting.refuse(Status.PENDING)
            waiting.is_late = True
        else:
            self._answer(decision, self._requests.pop((decision.client, decision.tag), WireRequest("", "")))

    def _break(self, decision: Breaks) -> None:
        loop, connection = asyncio.get_running_loop(), self._connections.get(decision.client)
        if decision.timer is not None:
            loop.call_later(self._break_timer, self.end_break, decision.timer)
        if connection and self._mistake is Mistake.LATE_BREAKS:
            loop.call_later(LATE, connection.notify, decision.notification.write())
        elif connection:
            connection.notify(decision.notification.write())

    def _acknowledged(self, decision: Acknowledged | NotAcknowledged) -> None:
        request, self._acknowledging = self._acknowledging, None
        assert request
        if isinstance(decision, Acknowledged):
            request.answer(decision.response.write())
        else:
            request.refuse(decision.status)

    def _answer(self, decision: Decision, request: WireRequest) -> None:
        is_kept = self._mistake is Mistake.KEPT_OPENS and request.file_id in self.handles
        if isinstance(decision, Opened):
            if decision.file_id not in self.handles:
                self.handles[decision.file_id] = Handle(request.file, self.descriptor_of(request.file))
            length = os.fstat(self.handles[decision.file_id].descriptor).st_size
            request.answer(created(decision.file_id, decision.answer, length))
        elif isinstance(decision, Closed):
            os.close(self.handles.pop(request.file_id).descriptor)
            request.answer(CLOSED)
        elif isinstance(decision, GoesOn) or is_kept and request.word in ("read", "write"):
            self.go_on(request)
        elif isinstance(decision, Refused):
            request.refuse(decision.status)


async def serve(folder: str, arguments: argparse.Namespace) -> None:
    mistake = Mistake[arguments.mistake] if arguments.mistake else None
    server = SmallServer(folder, Rules.of(arguments.rules), arguments.break_timer, mistake)
    listening = await asyncio.get_running_loop().create_server(lambda: SmallConnection(server), "127.0.0.1", 0)
    print(f"port {listening.sockets[0].getsockname()[1]}", flush=True)
    await listening.serve_forever()


def main() -> None:
    parser = argparse.ArgumentParser()
    parser.add_argument("--mistake", choices=[it.name for it in Mistake])
    parser.add_argument("--rules", default=str(Rules()))
    parser.add_argument("--break-timer", type=float, default=35.0)
    with tempfile.TemporaryDirectory() as folder:
        try:
            asyncio.run(serve(folder, parser.parse_args()))
        except KeyboardInterrupt:
            pass


if __name__ == "__main__":
    main()
