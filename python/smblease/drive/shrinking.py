"""Fewest lines: events, clients and files are left out as long as a schedule stays what it was."""
from __future__ import annotations

import logging
from collections.abc import Callable

from smblease.schedules import Event, EventKind, Schedule

LOG = logging.getLogger("smblease.drive.shrinking")
Stays = Callable[[Schedule], bool]
NAMING_FILES = {EventKind.OPEN, EventKind.CLOSE, EventKind.READ, EventKind.FLUSH, EventKind.WRITE, EventKind.EXPIRE,
                EventKind.SCAVENGE}


def shrunk(schedule: Schedule, stays: Stays, name: str = "a schedule") -> Schedule:
    """A schedule of which no single event can be left out any more, and no client or file that no event names. What is left is
    logged after each pass, under this name."""
    events = schedule.events
    part = max(1, len(events) // 2)
    while True:
        LOG.info("%s is shrunk: %d events are left, and runs of %d are left out next", name, len(events), part)
        left = _without_parts(schedule, events, part, stays)
        if part == 1 and len(left) == len(events):
            break
        events = left
        part = max(1, min(part // 2, len(events)))
    return _without_unused(schedule.with_events(events), stays)


def _without_parts(schedule: Schedule, events: tuple[Event, ...], part: int, stays: Stays) -> tuple[Event, ...]:
    """Tries to leave out each run of so many events, from the last on."""
    for start in (*range(len(events) - part, 0, -part), 0):
        shorter = events[:start] + events[start + part:]
        if len(shorter) < len(events) and stays(schedule.with_events(shorter)):
            events = shorter
    return events


def _without_unused(schedule: Schedule, stays: Stays) -> Schedule:
    """Leaves out clients and files that no event names, and numbers the others anew, where that changes nothing."""
    used = sorted({event.client for event in schedule.events if event.client <= len(schedule.clients)})
    files = sorted({int(event.words[0]) for event in schedule.events if event.kind in NAMING_FILES})
    if not used or not files or any(event.kind is EventKind.RAW for event in schedule.events):
        return schedule
    events: list[Event] = []
    for event in schedule.events:
        words = event.words
        if event.kind in NAMING_FILES:
            words = (str(files.index(int(words[0])) + 1), *words[1:])
        events.append(Event(event.kind, used.index(event.client) + 1, words))
    clients = tuple(schedule.clients[it - 1] for it in used)
    smaller = Schedule(tuple(schedule.files[it - 1] for it in files), clients, tuple(events))
    return smaller if smaller == schedule or stays(smaller) else schedule
