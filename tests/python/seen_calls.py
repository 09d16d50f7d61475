"""Calls of a manager of leases as values, and what is seen of a manager by what they give."""
from __future__ import annotations

import uuid
from dataclasses import dataclass
from typing import Any, Callable, NamedTuple, Optional, Sequence

from smblease.manager_decisions import (Acknowledged, Breaks, Closed, Decision, Ended, GoesOn, LeftBehind, Opened, Refused,
                                        Withdrawn)


class Call(NamedTuple):
    name: str
    arguments: tuple[Any, ...]

    def of(self, manager: object) -> Any:
        """What it gives of a manager, the proved one or another that takes the same calls."""
        return getattr(manager, self.name)(*self.arguments)

    def __str__(self) -> str:
        return f"{self.name}({', '.join(map(repr, self.arguments))})"


@dataclass(frozen=True)
class Known:
    """An open that was granted."""

    file_id: int
    client: int
    file: int
    key: Optional[uuid.UUID]


class Seen:
    def __init__(self, clients: Sequence[int]) -> None:
        self._clients = clients
        # clients that aren't connected
        self.away = set(clients)
        # requests and changes that aren't answered yet, by their tags
        self.asked: dict[int, Call] = {}
        self.known: dict[int, Known] = {}
        # opens that are no more, and those that wait for their client
        self.gone: list[Known] = []
        self.left: set[int] = set()
        # breaks that aren't acknowledged yet, and the timers of all
        self.breaks: list[Breaks] = []
        self.timers: list[int] = []

    def note(self, call: Call, given: Any) -> None:
        """What a call gave: decisions, or of a restart the opens that are left."""
        if call.name == "restart":
            self._restarted({it.file_id for it in given[0]})
        else:
            self._decided(call, given)

    def _restarted(self, left: set[int]) -> None:
        self.away, self.asked, self.breaks = set(self._clients), {}, []
        for file_id in [it for it in self.known if it not in left]:
            self._end(file_id)
        self.left = left

    def _decided(self, call: Call, decisions: Optional[Sequence[Decision]]) -> None:
        if call.name in ("create", "read", "write", "close_open", "change") and decisions:
            self.asked[call.arguments[1]] = call
        elif call.name == "join":
            self.away.discard(call.arguments[0])
        elif call.name == "cut":
            self.away.add(call.arguments[0])
            self._forget(lambda asked: bool(asked.arguments[0] == call.arguments[0]))
        elif call.name == "leave":
            client, _, tags = call.arguments
            self._forget(lambda asked: bool(asked.arguments[0] == client and asked.arguments[1] in tags))
        for decision in decisions or ():
            self._note(decision)

    def _forget(self, test: Callable[[Call], bool]) -> None:
        self.asked = {tag: asked for tag, asked in self.asked.items() if not test(asked)}

    def _note(self, decision: Decision) -> None:
        if isinstance(decision, Breaks):
            self._broken(decision)
        elif isinstance(decision, Acknowledged):
            self.breaks = [it for it in self.breaks if it.notification.key != decision.response.key]
        elif isinstance(decision, Ended):
            self._end(decision.file_id)
        elif isinstance(decision, LeftBehind):
            self.left.add(decision.file_id)
        elif isinstance(decision, (Opened, Closed, GoesOn, Refused, Withdrawn)):
            self._answered(decision, self.asked.pop(decision.tag))

    def _broken(self, decision: Breaks) -> None:
        if decision.timer is not None:
            self.breaks = [*self.breaks[-3:], decision]
            self.timers = [*self.timers[-5:], decision.timer]

    def _answered(self, decision: Decision, asked: Call) -> None:
        if isinstance(decision, Opened):
            self.left.discard(decision.file_id)
            self.known[decision.file_id] = Known(decision.file_id, decision.client, asked.arguments[2], decision.answer.key)
        elif isinstance(decision, Closed):
            self._end(asked.arguments[2])

    def _end(self, file_id: int) -> None:
        self.left.discard(file_id)
        self.gone = [*self.gone[-3:], self.known.pop(file_id)]
