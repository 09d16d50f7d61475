"""Damaged packets and torn streams: a server has to answer or close the connection, and go on serving others."""
from __future__ import annotations

import random
import struct

from smblease import Status
from smblease.drive.headers import Command
from smblease.drive.place import Place
from tests.serve import requests
from tests.serve.requests import Body
from tests.serve.wire_client import WireClient

BRIEFLY = 0.002


class Damager:
    def __init__(self, place: Place, chance: random.Random) -> None:
        self._place = place
        self._random = chance
        self._victim: WireClient | None = None
        self._bystander = WireClient(place)
        # the open that the victim made last, and how many more packets it is sent where its frames aren't in step
        self._file_id, self._left = 1, 1 << 30
        self.sent = self.connections = 0

    def send(self, count: int) -> None:
        while self.sent < count:
            self._one()
            if self.sent % 200 == 0:
                self.is_served()

    def is_served(self) -> None:
        """Somebody who does nothing wrong is answered all the while."""
        assert self._bystander.status(requests.ECHO) == Status.SUCCESS

    def close(self) -> None:
        for client in (self._victim, self._bystander):
            if client:
                client.close()

    def _one(self) -> None:
        if self._victim is None:
            self._victim, self._file_id, self._left = WireClient(self._place), 1, 1 << 30
            self.connections += 1
        victim = self._victim
        self.sent += 1
        try:
            data = self._frame(victim)
            is_torn = self._random.random() < 0.02
            victim.stream.sendall(data[:self._random.randrange(len(data))] if is_torn else data)
            self._left -= 1
            if is_torn or not self._drain(victim) or self._random.random() < 0.002 or not self._left:
                raise ConnectionError
        except OSError:
            victim.close()
            self._victim = None

    def _drain(self, victim: WireClient) -> bool:
        """Takes what was answered; whether the connection is still there."""
        wait = BRIEFLY
        while victim.has_more(wait):
            wait = 0.0
            try:
                data = victim.stream.recv(1 << 16)
            except OSError:
                return False
            if not data:
                return False
            place = data.find(b"\xfeSMB")
            if 0 <= place and len(data) > place + 152 and data[place + 12] == Command.CREATE and not data[place + 8]:
                self._file_id, = struct.unpack_from("<Q", data, place + 128)
        return True

    def _frame(self, victim: WireClient) -> bytes:
        """A frame of one request or some, most of them damaged."""
        count = 1 if self._random.random() < 0.8 else self._random.randrange(2, 5)
        known = requests.PLAIN + requests.on_open(self._file_id) + requests.on_open(0xFFFFFFFFFFFFFFFF)
        chosen = [self._random.choice(requests.CREATES if self._random.random() < 0.25 else known) for _ in range(count)]
        data = self._compound(victim, chosen)
        if self._random.random() < 0.85:
            data = self._damaged(data)
        length = len(data)
        if self._random.random() < 0.01:
            # What follows is taken for the rest of this frame, or this one's end for the next.
            length = self._random.choice((self._random.randrange(1 << 25), self._random.randrange(length + 200)))
            self._left = 3
        return struct.pack(">L", length) + data

    def _compound(self, victim: WireClient, chosen: list[Body]) -> bytes:
        data = b""
        for place, (command, body) in enumerate(chosen, 1):
            body += bytes(-len(body) % 8) if place < len(chosen) else b""
            flags = 4 if place > 1 and self._random.random() < 0.7 else 0
            following = 64 + len(body) if place < len(chosen) else 0
            data += requests.header(command, victim.number, victim.session, victim.tree, following, flags) + body
            victim.number += command != 12
        return data

    def _damaged(self, data: bytes) -> bytes:
        text = bytearray(data)
        manner = self._random.randrange(5)
        if manner == 0:
            return bytes(text[:self._random.randrange(len(text))]) or b"\0"
        if manner == 1:
            return bytes(text) + self._random.randbytes(self._random.randrange(1, 64))
        # Bodies more than headers, since a bad header ends the connection.
        start = 64 if manner < 4 and len(text) > 64 else 0
        for _ in range(self._random.choice((1, 1, 2, 3, 8))):
            place = self._random.randrange(start, len(text))
            text[place] = self._random.choice((0, 1, 0xFF, 0x7F, 0x80, self._random.randrange(256)))
        return bytes(text)
