"""Schedules that aim: each has a held lease, a change by another client, and then what would show a server's mistake.

A scene is what three clients do on one file, with what each opens it for, and what comes in between, drawn anew for each. Its
events are chosen one by one, by what the run has come to, so that nobody has to know beforehand what a server sends.
"""
from __future__ import annotations

import random
from collections.abc import Callable, Iterator
from enum import Enum

from smblease.schedules import Event, EventKind
from smblease.world import Link, Peer, World

Events = Iterator[Event]
# Each of two scenes has a file of its own, and what comes in between has the last one.
CLIENTS, FILES = 3, 3
# how many events a client's messages take at most until nothing of them is on its way
MOST_MESSAGES = 40


class Stage:
    """Who plays which part in a scene, and on which file. `world` is the run, which each event that is given out has changed when
    the next one is asked for."""

    def __init__(self, world: World[Peer], chance: random.Random, file: int, first_byte: int) -> None:
        """Each write has a byte of its own, from `first_byte` on."""
        self.chance = chance
        self._world = world
        self._byte = first_byte - 1
        self.holder, self.other, self.third = chance.sample(range(1, CLIENTS + 1), CLIENTS)
        self.file, self.elsewhere = file, FILES

    def peer(self, client: int) -> Peer:
        return self._world.peers[client]

    def likely(self, share: float) -> bool:
        return self.chance.random() < share

    def one_of(self, *words: str) -> str:
        return self.chance.choice(words)

    def byte(self) -> str:
        """What the next write writes."""
        self._byte += 1
        return f"{self._byte:02x}"

    def event(self, kind: EventKind, client: int, *words: str) -> Event:
        return Event(kind, client, words)

    def connects(self) -> Events:
        """Whoever isn't connected is again."""
        for client in range(1, CLIENTS + 1):
            if self.peer(client).link is Link.CUT:
                yield self.event(EventKind.NOTICE, client)
            if self.peer(client).link is Link.DOWN:
                yield self.event(EventKind.CONNECT, client)

    def serves(self, client: int) -> Events:
        """The server receives what a client sent."""
        for _ in range(MOST_MESSAGES):
            if not self.peer(client).requests:
                return
            yield self.event(EventKind.SERVE, client)

    def comes(self, client: int) -> Events:
        """A client's requests are received and its messages taken, until nothing of it is on its way."""
        for _ in range(MOST_MESSAGES):
            if self.peer(client).requests:
                yield self.event(EventKind.SERVE, client)
            elif self.peer(client).replies:
                yield self.event(EventKind.TAKE, client)
            else:
                return

    def all_come(self) -> Events:
        for client in (self.holder, self.other, self.third, self.holder, self.other):
            yield from self.comes(client)

    def opens(self, client: int, access: str, share: str, state: str, durable: bool = False) -> Events:
        words = (str(self.file), access, share, state, *(("durable",) if durable else ()))
        yield self.event(EventKind.OPEN, client, *words)
        yield from self.serves(client)

    def reads(self, client: int) -> Events:
        """A read, from the cache where the client may."""
        yield self.event(EventKind.READ, client, str(self.file))

    def writes(self, client: int) -> Events:
        """A write, which others don't always write over."""
        yield self.event(EventKind.WRITE, client, str(self.file), str(self.chance.randint(0, 3)), self.byte())
        yield from self.serves(client)

    def caches(self, client: int) -> Events:
        """What a client reads first it has from then on."""
        yield from self.comes(client)
        yield from self.reads(client)
        yield from self.comes(client)

    def changes(self, client: int) -> Events:
        """A write that isn't left in a buffer."""
        yield from self.writes(client)
        yield self.event(EventKind.FLUSH, client, str(self.file))
        yield from self.serves(client)

    def watches(self, client: int) -> Events:
        """After each message that is on its way a client reads, so that it is seen what its cache has by then; and once more."""
        yield from self.serves(client)
        for _ in range(len(self.peer(client).replies)):
            yield self.event(EventKind.TAKE, client)
            yield from self.reads(client)
        yield from self.comes(client)
        yield from self.reads(client)

    def has_a_message_more(self, client: int) -> Events:
        """A message that says nothing of the file, or an answer to a write of one's own."""
        if self.likely(0.6):
            yield self.event(EventKind.OPEN, client, str(self.elsewhere), self.one_of("r", "rw"), "rw", self.one_of("none", "R"))
        else:
            yield self.event(EventKind.WRITE, client, str(self.file), "4", self.byte())
        yield from self.serves(client)


def cached_read(stage: Stage) -> Events:
    """A read from the cache, one message after another client's write."""
    yield from stage.opens(stage.holder, stage.one_of("r", "rw"), "rw", stage.one_of("RH", "RH", "R", "RWH"))
    yield from stage.caches(stage.holder)
    yield from stage.opens(stage.other, "rw", "rw", stage.one_of("none", "none", "RH", "RWH"))
    yield from stage.all_come()
    if stage.likely(0.5):
        yield from stage.reads(stage.holder)
    yield from stage.changes(stage.other)
    yield from stage.has_a_message_more(stage.holder)
    yield from stage.watches(stage.holder)


def held_write(stage: Stage) -> Events:
    """A write that has to wait, a read meanwhile or a lost connection, and a read by somebody whom that must not show to."""
    yield from stage.opens(stage.holder, "r", "rw", "RH")
    if stage.likely(0.5):
        yield from stage.caches(stage.holder)
    yield from stage.comes(stage.holder)
    yield from stage.opens(stage.other, "rw", "rw", stage.one_of("none", "none", "R"))
    yield from stage.all_come()
    yield from stage.opens(stage.third, "r", stage.one_of("-", "-", "r"), "none")
    yield from stage.writes(stage.other)
    if stage.likely(0.4):
        yield from stage.reads(stage.holder)
        yield from stage.watches(stage.holder)
    else:
        yield stage.event(EventKind.CUT, stage.other)
    yield from stage.comes(stage.holder)
    yield from stage.comes(stage.third)
    yield from stage.opens(stage.third, "r", "rw", stage.one_of("R", "RH"))
    yield from stage.caches(stage.third)
    yield from stage.reads(stage.third)
    yield from stage.reads(stage.holder)


def second_open(stage: Stage) -> Events:
    """An acknowledgment by which something stays, and another open and a write that this has to be asked for."""
    durable = stage.likely(0.4)
    yield from stage.opens(stage.holder, "rw", "rw", stage.one_of("RWH", "RWH", "RW"), durable)
    yield from stage.caches(stage.holder)
    if stage.likely(0.6):
        yield from stage.writes(stage.holder)
    yield from stage.opens(stage.other, stage.one_of("r", "rw"), "rw", stage.one_of("none", "RH", "RWH"))
    yield from stage.all_come()
    yield from stage.reads(stage.holder)
    if stage.likely(0.6):
        yield from stage.opens(stage.third, stage.one_of("r", "rw"), stage.one_of("-", "r", "rw"), stage.one_of("none", "RH"))
        yield from stage.watches(stage.holder)
        yield from stage.all_come()
    writer = stage.third if stage.likely(0.5) else stage.other
    yield from stage.opens(writer, "rw", "rw", "none")
    yield from stage.all_come()
    yield from stage.changes(writer)
    yield from stage.has_a_message_more(stage.holder)
    yield from stage.watches(stage.holder)


def late_acknowledgment(stage: Stage) -> Events:
    """A break whose timer runs out, what another client does then, and what the first one had buffered."""
    yield from stage.opens(stage.holder, "rw", "rw", "RWH", stage.likely(0.4))
    yield from stage.comes(stage.holder)
    if stage.likely(0.5):
        yield from stage.caches(stage.holder)
    yield from stage.writes(stage.holder)
    yield from stage.opens(stage.other, "rw", "rw", stage.one_of("none", "RH", "RWH"))
    yield stage.event(EventKind.EXPIRE, stage.holder, str(stage.file))
    yield from stage.comes(stage.other)
    yield from stage.changes(stage.other)
    yield from stage.comes(stage.other)
    yield from stage.watches(stage.holder)
    yield from stage.opens(stage.holder, "rw", "rw", stage.one_of("RWH", "RH"))
    yield from stage.caches(stage.holder)


def lost_connection(stage: Stage) -> Events:
    """A connection that is lost while a lease is held, and what its client finds once it is there again."""
    yield from stage.opens(stage.holder, "rw", "rw", stage.one_of("RWH", "RWH", "RH"), stage.likely(0.6))
    yield from stage.caches(stage.holder)
    if stage.likely(0.6):
        yield from stage.writes(stage.holder)
    yield stage.event(EventKind.CUT, stage.holder)
    yield from stage.opens(stage.other, "rw", "rw", stage.one_of("none", "RH", "RWH"))
    yield from stage.caches(stage.other)
    yield from stage.changes(stage.other)
    yield from stage.comes(stage.other)
    yield from stage.connects()
    yield from stage.watches(stage.holder)
    yield from stage.opens(stage.holder, "rw", "rw", "RWH", stage.likely(0.3))
    yield from stage.caches(stage.holder)
    yield from stage.changes(stage.holder)
    yield from stage.has_a_message_more(stage.other)
    yield from stage.watches(stage.other)


class Aim(Enum):
    """What a schedule aims at."""

    CACHED_READ = "cached_read"
    HELD_WRITE = "held_write"
    SECOND_OPEN = "second_open"
    LATE_ACKNOWLEDGMENT = "late_acknowledgment"
    LOST_CONNECTION = "lost_connection"


SCENES: dict[Aim, Callable[[Stage], Events]] = {
    Aim.CACHED_READ: cached_read, Aim.HELD_WRITE: held_write, Aim.SECOND_OPEN: second_open,
    Aim.LATE_ACKNOWLEDGMENT: late_acknowledgment, Aim.LOST_CONNECTION: lost_connection,
}


def aimed_events(world: World[Peer], chance: random.Random, aim: Aim) -> Events:
    """The events of a schedule: a scene, and another one before or after it as often as not; now and then clients do something
    else in between, on a file of their own."""
    scenes = [aim]
    if chance.random() < 0.5:
        scenes.insert(chance.randint(0, 1), chance.choice(list(Aim)))
    for file, one in enumerate(scenes, 1):
        stage = Stage(world, chance, file, 100 * (file - 1) + 1)
        yield from stage.connects()
        yield from _mingled(stage, SCENES[one](stage))
        yield from stage.connects()
        yield from stage.all_come()
        yield from stage.reads(stage.holder)
        yield from stage.all_come()


def _mingled(stage: Stage, events: Events) -> Events:
    """These events, and what clients do on another file in between."""
    share = stage.chance.choice((0.0, 0.0, 0.1, 0.25))
    for event in events:
        yield event
        if stage.likely(share):
            yield from _meanwhile(stage)


def _meanwhile(stage: Stage) -> Events:
    """A client that has sent nothing does something on another file; what it is sent stays on its way."""
    client, file = stage.chance.choice((stage.holder, stage.other, stage.third)), str(stage.elsewhere)
    if stage.peer(client).link is not Link.UP or stage.peer(client).requests:
        return
    if stage.likely(0.5):
        yield stage.event(EventKind.OPEN, client, file, stage.one_of("r", "rw"), "rw", stage.one_of("none", "R", "RH", "RWH"))
    else:
        yield stage.event(EventKind.READ, client, file)
    yield from stage.serves(client)
