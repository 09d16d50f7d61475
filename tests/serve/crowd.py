"""Clients at once, each with many requests, while one connection sends nothing and another one half of a request."""
from __future__ import annotations

import socket
import threading
import uuid

from smblease import CreateAsk, LeaseState, Notification, Status
from smblease.drive.headers import HEADER, UNASKED, Command, Message
from smblease.drive.place import Place
from tests.serve.requests import Body, close, create, read, write
from tests.serve.wire_client import WireClient, file_id

FILES = 4


class Member:
    """One client, which opens, writes, reads and closes files that all share; it acknowledges every break."""

    def __init__(self, place: Place, number: int) -> None:
        self._number = number
        self._client = WireClient(place, uuid.UUID(int=number + 1).bytes)
        self.answered = self.breaks = 0
        self.fault: BaseException | None = None

    def run(self, count: int) -> None:
        try:
            turn = 0
            while self.answered < count:
                turn += 1
                self._turn((self._number + turn) % FILES)
        except BaseException as fault:  # pylint: disable=broad-exception-caught  # a thread hands on what went wrong
            self.fault = fault

    def _turn(self, file: int) -> None:
        key = uuid.UUID(bytes=self._client.guid[:12] + bytes([file, 0, 0, 0]))
        contexts = CreateAsk(key, LeaseState.of("RWH")).write()
        opened = file_id(self._ask(create(f"shared-{file}", share=3, level=0xFF, contexts=contexts)))
        for place in range(6):
            self._ask(write(opened, 16 * self._number + place, bytes([self._number])))
            self._ask(read(opened))
        self._ask(close(opened))

    def end(self) -> None:
        self._client.close()

    def _ask(self, body: Body) -> Message:
        number = self._client.send(body)
        while True:
            message = self._client.receive()
            if message.identifier == number and message.status != Status.PENDING:
                assert message.status == Status.SUCCESS, (body[0], hex(message.status))
                self.answered += 1
                return message
            if message.identifier == UNASKED:
                self._acknowledge(message.data[HEADER:])

    def _acknowledge(self, notice: bytes) -> None:
        """Its answer comes among the others, and is passed over."""
        self.breaks += 1
        due = Notification.read(notice).acknowledgment()
        if due:
            self._client.send((Command.OPLOCK_BREAK, due.write()))


def crowded(place: Place, clients: int, count: int) -> list[Member]:
    """So many clients with so many requests each."""
    silent = [socket.create_connection((place.host, place.port)) for _ in range(2)]
    silent[1].sendall(b"\0\0\1\0\xfeSMB")
    members = [Member(place, number) for number in range(clients)]
    threads = [threading.Thread(target=member.run, args=(count,)) for member in members]
    for thread in threads:
        thread.start()
    for thread in threads:
        thread.join()
    for member in members:
        member.end()
        if member.fault:
            raise member.fault
    for one in silent:
        one.close()
    return members
