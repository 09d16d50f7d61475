"""What a record has to be where a server claims to keep rules: that of the proved server of these rules, step by step."""
from __future__ import annotations

from collections.abc import Sequence
from dataclasses import dataclass
from typing import Tuple

from smblease import Server
from smblease.drive.records import by_client
from smblease.schedules import Event, EventKind, Schedule
from smblease.values import Rules
from smblease.world import ClientObjects, MachineWorld

Timer = Tuple[int, int]


@dataclass(frozen=True)
class Step:
    """An event of a run, and how many facts there were after it. Where timers were waited for, `waits` are the clients and files
    whose breaks ran out, wait by wait."""

    event: Event
    count: int
    waits: tuple[tuple[Timer, ...], ...] = ()

    @property
    def replayed(self) -> tuple[Event, ...]:
        """The events by which a replay has it."""
        timers = [timer for wait in self.waits for timer in wait]
        return tuple(Event(EventKind.EXPIRE, client, (str(file),)) for client, file in timers) or (self.event,)


@dataclass(frozen=True)
class Difference:
    """The first step in which a record isn't the expected one: its place among the events, and the facts from the first one on
    that differs for some client. `place` is that fact's place in the record, or where one is missing."""

    number: int
    event: Event
    place: int
    had: tuple[str, ...]
    expected: tuple[str, ...]

    @property
    def text(self) -> str:
        had, expected = (", ".join(its) or "nothing" for its in (self.had, self.expected))
        return f"fact {self.place}, at event {self.number} ({self.event.text}): {had}; expected: {expected}"


class Facts:
    """The facts of a run that nobody sees otherwise."""

    def __init__(self) -> None:
        self.facts: list[str] = []

    def fact(self, text: str) -> None:
        self.facts.append(text)

    def remark(self, text: str) -> None:
        """What is in a message isn't compared."""


def first_difference(schedule: Schedule, steps: Sequence[Step], facts: Sequence[str], rules: Rules) -> Difference | None:
    """Where these facts of a run first aren't those of the proved server. Within a step those of each client are in order."""
    expected = Facts()
    world = MachineWorld(schedule, ClientObjects(schedule), Server(schedule.files, rules), expected)
    begun, driven = len(expected.facts), len(expected.facts)
    for number, step in enumerate(steps, 1):
        for event in step.replayed:
            world.happens(event)
        had, wanted = by_client(facts[driven:step.count]), by_client(expected.facts[begun:])
        if had != wanted:
            return _difference(number, step, driven, list(facts[driven:step.count]), had, wanted)
        begun, driven = len(expected.facts), step.count
    return None


def _difference(number: int, step: Step, start: int, facts: list[str], had: dict[str, list[str]],
                wanted: dict[str, list[str]]) -> Difference:
    """What of a step isn't expected, client by client."""
    mine: list[str] = []
    theirs: list[str] = []
    for client in sorted({*had, *wanted}):
        own, other = had.get(client, []), wanted.get(client, [])
        same = next((place for place, (a, b) in enumerate(zip(own, other)) if a != b), min(len(own), len(other)))
        mine += own[same:]
        theirs += other[same:]
    place = next((place for place, fact in enumerate(facts) if fact in mine), len(facts))
    return Difference(number, step.event, start + place + 1, tuple(mine), tuple(theirs))
