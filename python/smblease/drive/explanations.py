"""Runs of a schedule on the model server, and which departures explain a record."""
from __future__ import annotations

from collections.abc import Mapping, Sequence
from dataclasses import dataclass, field
from itertools import combinations

from smblease.client import lease_key
from smblease.drive.expectation import Step, Timer
from smblease.drive.model import Departure, Model
from smblease.drive.records import Record, by_client
from smblease.program import replay
from smblease.requests import Request
from smblease.schedules import Schedule
from smblease.values import Rules
from smblease.world import ClientObjects, Link, Peer, World

UNEXPLAINED = "unexplained"
NONE: frozenset[Departure] = frozenset()
SOMETIMES = (Departure.LAST_FIRST, Departure.BY_ARRIVAL, Departure.KEPT_HOLDS, Departure.KEPT_ALONE)
RARE = (Departure.KEPT_HOLDS_ALL, Departure.BACK_NOT_KEPT, Departure.UNKEPT_GIVES_BACK, Departure.WRITER_BREAKS_NONE)


class ModelWorld(World[Peer]):
    def __init__(self, schedule: Schedule, departures: frozenset[Departure]) -> None:
        # whose breaks run out at the next `expire`, wait by wait, where that isn't known of the departures
        self.waits: tuple[tuple[Timer, ...], ...] = ()
        self.record = Record()
        peers = {number: Peer(guid) for number, guid in enumerate(schedule.clients, 1)}
        super().__init__(schedule, peers, ClientObjects(schedule), self.record)
        self._model = Model(dict(enumerate(schedule.files, 1)), departures)
        self._places = 0

    def _served(self, client: int, request: Request) -> None:
        self._places += 1
        self._model.receive(client, request, self._places)
        self._settle()

    def _joined(self, client: int) -> None:
        self._model.join(client)

    def _dropped(self, client: int) -> None:
        self._model.cut(client)
        self._settle()

    def _expire(self, client: int, file: int) -> bool:
        if self.waits:
            for wait in self.waits:
                self._run_out(wait)
            return True
        keys_by_file = {it: (client, lease_key(self.peers[client].guid, it)) for it in self.files}
        if not self._model.is_breaking(keys_by_file[file]):
            return False
        keys = self._model.expired_with(keys_by_file[file])
        for expired, key in keys_by_file.items():
            if key in keys:
                self.record.fact(f"expired {client} {expired}")
        self._model.expire(keys)
        self._settle()
        return True

    def _run_out(self, wait: tuple[Timer, ...]) -> None:
        """The timers of a server that wasn't made to end them, as they were waited for."""
        for client, file in wait:
            self.record.fact(f"expired {client} {file}")
        for client, file in wait:
            key = (client, lease_key(self.peers[client].guid, file))
            if self._model.is_breaking(key):
                self._model.expire([key])
        self._settle()

    def _scavenge(self, client: int, file: int) -> bool:
        applied = self._model.scavenge(client, file)
        self._settle()
        return applied

    def _settle(self) -> None:
        arrivals = self._model.taken()
        for arrival in arrivals:
            peer = self.peers[arrival.client]
            if peer.link is Link.UP:
                peer.replies.append(arrival.reply)
        self.record.step(arrivals)


@dataclass(frozen=True)
class Run:
    """A schedule, and where its timers were waited for whose breaks ran out, by the places of its events."""

    schedule: Schedule
    waits: Mapping[int, tuple[tuple[Timer, ...], ...]] = field(default_factory=dict)

    @classmethod
    def waited(cls, schedule: Schedule, steps: Sequence[Step]) -> Run:
        """Of a server whose timers were waited for: the events that were driven."""
        driven = schedule.with_events(tuple(it.event for it in steps))
        return cls(driven, {place: step.waits for place, step in enumerate(steps) if step.waits})

    @property
    def replayed(self) -> Schedule:
        """The schedule as a replay has it."""
        events = [Step(event, 0, self.waits.get(place, ())).replayed for place, event in enumerate(self.schedule.events)]
        return self.schedule.with_events(tuple(it for step in events for it in step))


def facts_of(run: Run, departures: frozenset[Departure] = NONE) -> list[str]:
    """The facts of a run on the model server, in the order of a driven record."""
    schedule = run.schedule
    world = ModelWorld(schedule, departures)
    for place, event in enumerate(schedule.events):
        world.waits = run.waits.get(place, ())
        world.happens(event)
    return world.record.facts()


def alike(one: list[str], other: list[str]) -> int:
    """How many facts are the same, from the first on."""
    return next((place for place, (a, b) in enumerate(zip(one, other)) if a != b), min(len(one), len(other)))


def explained(run: Run, facts: list[str]) -> frozenset[Departure] | None:
    """The departures that give these facts, of which none can be left out; none where no set was found. The rare ones are looked
    at where the others don't do."""
    usual = [it for it in Departure if it not in RARE]
    for known in (usual, list(Departure)):
        found = _found(run, facts, known)
        if found is not None:
            return found
    return None


def _found(run: Run, facts: list[str], known: Sequence[Departure]) -> frozenset[Departure] | None:
    """They are looked for one by one: the next is one that has the most facts from the first on come out as they should."""
    chosen: frozenset[Departure] = NONE
    reached = -1
    while True:
        if facts_of(run, chosen) == facts:
            return _needed(run, facts, chosen)
        tried = {it: facts_of(run, chosen | {it}) for it in known if it not in chosen}
        if not tried:
            return None
        best = max(tried, key=lambda it: (tried[it] == facts, alike(tried[it], facts)))
        now = alike(tried[best], facts)
        if tried[best] != facts and now <= reached:
            return _from_all(run, facts, known)
        chosen, reached = chosen | {best}, now


def _from_all(run: Run, facts: list[str], known: Sequence[Departure]) -> frozenset[Departure] | None:
    """Begins with all departures, but for some of those that smbd doesn't always show."""
    sometimes = [it for it in (*SOMETIMES, *RARE) if it in known]
    for count in range(len(sometimes) + 1):
        for left_out in combinations(sometimes, count):
            chosen = frozenset(known) - frozenset(left_out)
            if facts_of(run, chosen) == facts:
                return _needed(run, facts, chosen)
    return None


def _needed(run: Run, facts: list[str], chosen: frozenset[Departure]) -> frozenset[Departure]:
    for one in sorted(chosen, key=lambda it: it.name):
        if facts_of(run, chosen - {one}) == facts:
            chosen = chosen - {one}
    return chosen


@dataclass(frozen=True)
class Likeness:
    """What was found of a record: the departures that explain it, none at all where it is the profile's."""

    departures: frozenset[Departure] | None

    @property
    def is_open(self) -> bool:
        return self.departures is None

    @property
    def word(self) -> str:
        """`same`, `unexplained`, or the names of the departures."""
        if self.departures is None:
            return UNEXPLAINED
        return ",".join(sorted(it.name.lower() for it in self.departures)) or "same"


def likeness_of(program: str, run: Run, facts: list[str], counts: Sequence[int] = (), rules: Rules = Rules()) -> Likeness:
    """What explains the facts of a record; `counts` say how many there were after each step. The known departures are from the
    profile, so nothing explains what departs from other rules."""
    if is_replayed(facts, replay(program, run.replayed.text, rules=rules), counts):
        return Likeness(NONE)
    return Likeness(explained(run, facts) if rules == Rules() else None)


def is_replayed(facts: list[str], profile: list[str], counts: Sequence[int]) -> bool:
    """Whether these are the profile's facts, where within a step those of each client are in order."""
    steps = zip([0, *counts], [*counts, len(facts)])
    return len(facts) == len(profile) and all(by_client(facts[start:end]) == by_client(profile[start:end])
                                              for start, end in steps)
