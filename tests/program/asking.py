"""The requests of a schedule's run, and what becomes of them, by client machines and a server machine that are asked by lines."""
from __future__ import annotations

import contextlib
from dataclasses import dataclass
from typing import Optional

from smblease.lines import request_words
from smblease.processes import LineClients, client_process
from smblease.schedules import Event, EventKind, Schedule
from smblease.world import MachineWorld
from tests.program.idling import Facts
from tests.program.line_server import LineServer, server_process


@dataclass
class Asked:
    """A request that a client sent when the record had so many facts. It ends above the row `end`, if it does: the server takes
    it, or it is lost."""

    client: int
    words: str
    facts: int
    end: Optional[int] = None
    is_taken: bool = False


class AskingWorld(MachineWorld):
    """A world that keeps what becomes of requests."""

    def __init__(self, schedule: Schedule, clients: LineClients, server: LineServer, facts: Facts) -> None:
        super().__init__(schedule, clients, server, facts)
        self.facts = facts
        self.asked: list[Asked] = []
        self.waiting: dict[int, list[Asked]] = {client: [] for client in self.peers}

    def happens(self, event: Event) -> bool:
        peer, facts = self.peers.get(event.client), len(self.facts.lines)
        before = [] if peer is None else list(peer.requests)
        did = super().happens(event)
        if peer is not None:
            left = [one for one in peer.requests if any(one is other for other in before)]
            self._end(event, len(before) - len(left), facts)
            self._send(event.client, [request_words(one) for one in list(peer.requests)[len(left):]])
        return did

    def _end(self, event: Event, count: int, facts: int) -> None:
        waiting = self.waiting[event.client]
        for one in waiting[:count]:
            one.end, one.is_taken = facts + len(self.asked), event.kind is EventKind.SERVE
        del waiting[:count]

    def _send(self, client: int, requests: list[str]) -> None:
        sent = [Asked(client, words, len(self.facts.lines)) for words in requests]
        self.asked += sent
        self.waiting[client] += sent


def requests_of(program: str, text: str) -> list[Asked]:
    """The requests of a schedule's run, in order."""
    schedule = Schedule.read(text)
    with contextlib.closing(LineClients(client_process(program, schedule))) as clients, \
            contextlib.closing(LineServer(server_process(program, schedule))) as server:
        world = AskingWorld(schedule, clients, server, Facts())
        for event in schedule.events:
            world.happens(event)
    return world.asked
