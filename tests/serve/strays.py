"""Random schedules with requests that no machine made, in the names of their clients."""
from __future__ import annotations

import random
import struct
import uuid
from collections.abc import Callable

from smblease import (Access, AcknowledgeRequest, CloseRequest, CreateAsk, CreateRequest, LeaseState, ReadRequest, Request, Share,
                      WriteRequest)
from smblease.lines import request_words
from smblease.program import replay
from smblease.schedules import Event, Schedule

from tests.serve.driving import random_schedule

NO_OPEN = 5000
OFFSETS = (0, 1, 5, 1048575, 1048576, 4294967295)


class Stray:
    """Requests of one client. `file_id` is that of an open there is, or of none."""

    def __init__(self, chance: random.Random, guid: uuid.UUID, files: int, file_id: int) -> None:
        self._chance = chance
        self._file = chance.randint(1, files)
        self._key = uuid.UUID(bytes=guid.bytes[:12] + struct.pack("<L", chance.choice((self._file, self._file, 2, 77))))
        self._file_id = file_id

    def request(self) -> Request:
        kinds: dict[str, Callable[[], Request]] = {
            "create": self._create, "read": lambda: ReadRequest(self._file_id), "close": lambda: CloseRequest(self._file_id),
            "write": self._write, "ack": self._acknowledgment,
        }
        return kinds[self._chance.choice(("create", "create", "read", "write", "close", "ack"))]()

    def _create(self) -> Request:
        chance = self._chance
        key = self._key if chance.random() < 0.7 else None
        reconnect = self._file_id if chance.random() < 0.2 else None
        text = CreateAsk(key, LeaseState(chance.randrange(8)), chance.random() < 0.3, reconnect).write()
        if text and chance.random() < 0.1:
            text = text[:chance.randrange(1, len(text))]
        return CreateRequest(self._file, chance.choice(list(Access)), chance.choice(list(Share)), text)

    def _write(self) -> Request:
        number = self._chance.randint(1000, 1 << 60)
        return WriteRequest(self._file_id, number, self._chance.choice(OFFSETS), self._chance.choice((b"", b"Y", b"Z[")))

    def _acknowledgment(self) -> Request:
        size = self._chance.choice((36, 36, 36, 24, 44))
        return AcknowledgeRequest(struct.pack("<HHL16sLQ", size, 0, 0, self._key.bytes, self._chance.randrange(8), 0))


def strayed_schedule(program: str, chance: random.Random) -> Schedule:
    """A random schedule with a stray request, served at once, after every fourth event or so."""
    schedule = random_schedule(chance)
    events = list(schedule.events)
    places = sorted(chance.randint(len(events) // 5, len(events)) for _ in range(len(events) // 4))
    for shift, place in enumerate(places):
        place += 2 * shift
        before = replay(program, Schedule(schedule.files, schedule.clients, tuple(events[:place])).text)
        opens = sum(fact.startswith("opened ") for fact in before)
        file_id = chance.randint(1, opens) if opens and chance.random() < 0.9 else NO_OPEN
        client = chance.randint(1, len(schedule.clients))
        request = Stray(chance, schedule.clients[client - 1], len(schedule.files), file_id).request()
        events[place:place] = [Event.read(f"raw {client} {request_words(request)}"), Event.read(f"serve {client}")]
    return Schedule(schedule.files, schedule.clients, tuple(events))
