"""Random schedules: events that are chosen by weights, blindly or by what a run has come to."""
from __future__ import annotations

import random
import uuid
from collections.abc import Callable
from dataclasses import dataclass
from functools import partial

from smblease.drive.aims import CLIENTS, FILES
from smblease.drive.driver import Driver
from smblease.drive.peers import DrivenPeer
from smblease.schedules import Event, EventKind, Schedule
from smblease.world import Link

FILE = b"abc"
MOST_CLIENTS = 3
BLIND_WEIGHTS: dict[EventKind, float] = {
    EventKind.OPEN: 3, EventKind.CLOSE: 1, EventKind.READ: 2, EventKind.FLUSH: 0.5, EventKind.WRITE: 2,
    EventKind.SERVE: 8, EventKind.TAKE: 8, EventKind.CUT: 0.6, EventKind.NOTICE: 1, EventKind.CONNECT: 1,
    EventKind.EXPIRE: 0.5, EventKind.SCAVENGE: 0.2,
}


@dataclass(frozen=True)
class Temper:
    """What a schedule likes to do: how often its rarer events come, how soon each client opens files and takes what was sent
    to it, and what each opens files for."""

    opens: tuple[float, ...]
    takes: tuple[float, ...]
    closes: float
    cuts: float
    timers: float
    durable: float
    wants: tuple[tuple[str, ...], ...]
    accesses: tuple[tuple[str, ...], ...]
    shares: tuple[tuple[str, ...], ...]
    reads: float = 1.5
    # how often files are written while nobody else has a break to acknowledge, and while somebody has
    writes: tuple[float, float] = (1.5, 1.5)
    # by how much less often a client takes messages while it has a break to acknowledge
    late: float = 1.0


def drawn_temper(chance: random.Random) -> Temper:
    return Temper(
        opens=tuple(chance.choice((0.2, 1.0, 3.0)) for _ in range(MOST_CLIENTS)),
        takes=tuple(chance.choice((0.5, 2.0, 6.0)) for _ in range(MOST_CLIENTS)),
        closes=chance.choice((0.3, 1.0, 3.0)),
        cuts=chance.choice((0.0, 0.7, 2.5)),
        timers=chance.choice((0.0, 1.0, 3.0)),
        durable=chance.choice((0.0, 0.5, 0.9)),
        wants=MOST_CLIENTS * (chance.choice((("RWH",), ("RWH", "RH"), ("RWH", "RH", "R", "none"),
                                             ("RWH", "RW", "RH", "R", "none"))),),
        accesses=MOST_CLIENTS * (chance.choice((("rw",), ("rw", "r"), ("rw", "r", "w"))),),
        shares=MOST_CLIENTS * (chance.choice((("rw",), ("rw",), ("rw", "rw", "-"), ("rw", "r", "w", "-"))),),
    )


def aimed_temper(chance: random.Random) -> Temper:
    """It aims at a write while the lease of another client breaks to reads: the first client caches reads and handles, and
    takes a break late; the second asks for opens that share nothing; the third writes."""
    return Temper(
        opens=(3.0, chance.choice((0.3, 0.6)), 3.0), takes=(3.0, 3.0, 3.0), closes=chance.choice((0.3, 1.0)),
        cuts=0.0, timers=0.0, durable=0.0,
        wants=(("RH",), ("none",), ("none",)), accesses=(("r",), ("r",), ("rw",)), shares=(("rw",), ("-",), ("rw",)),
        reads=4.0, writes=(0.05, 1.5), late=0.15,
    )


class Chooser:
    """Chooses the setup of a schedule, and its events one by one."""

    def __init__(self, chance: random.Random, aims: bool = False, scavenges: bool = True) -> None:
        """`scavenges`: the server's timers of durable opens can be ended."""
        self._chance = chance
        self._scavenges = scavenges
        self._temper = aimed_temper(chance) if aims else drawn_temper(chance)
        self._ends = not aims
        self._written = 0
        self.clients = MOST_CLIENTS if aims else chance.choice((2, 2, MOST_CLIENTS))
        self.files = 1 if aims else chance.choice((1, 1, 1, 1, 2))
        self.length = 80 if aims else chance.randint(30, 80)

    def setup(self) -> Schedule:
        return setup_of(self.clients, self.files)

    def blind(self) -> Event:
        """An event of any client, whether it applies or not."""
        weights = dict(BLIND_WEIGHTS)
        weights[EventKind.CUT] *= self._temper.cuts
        weights[EventKind.NOTICE] *= self._ends
        for kind in (EventKind.EXPIRE, EventKind.SCAVENGE):
            weights[kind] *= self._temper.timers
        weights[EventKind.SCAVENGE] *= self._scavenges
        kind = self._chance.choices(list(weights), list(weights.values()))[0]
        return self._event(kind, self._chance.randint(1, self.clients))

    def guided(self, driver: Driver) -> Event:
        """An event that applies as things stand, or may."""
        events: list[tuple[EventKind, int]] = []
        weights: list[float] = []
        for client, peer in driver.peers.items():
            others = [it for number, it in driver.peers.items() if number != client]
            for kind, weight in self._possible(client, peer, others).items():
                if weight:
                    events.append((kind, client))
                    weights.append(weight)
        return self._event(*self._chance.choices(events, weights)[0])

    def _possible(self, client: int, peer: DrivenPeer, others: list[DrivenPeer]) -> dict[EventKind, float]:
        """What a client may do, with its weight. A server has most to decide where a client that is alone with a file loses
        its connection, and where another one opens what it left."""
        likes = self._temper
        scavenge = 0.3 * likes.timers if peer.kept and self._scavenges else 0.0
        if peer.link is Link.DOWN:
            return {EventKind.CONNECT: 4, EventKind.SCAVENGE: scavenge}
        if peer.link is Link.CUT:
            return {EventKind.NOTICE: 3, EventKind.SCAVENGE: scavenge, EventKind.READ: 0.2}
        busy = 1.0 if peer.files else 0.1
        alone = bool(peer.files) and not any(it.files for it in others)
        left = any(it.kept for it in others)
        takes = likes.takes[client - 1] * (likes.late if peer.breaking else 1)
        opens = 0.7 if peer.files else likes.opens[client - 1] * (3 if left else 1)
        return {
            EventKind.SERVE: 6 if peer.requests else 0, EventKind.TAKE: takes if peer.replies else 0,
            EventKind.OPEN: opens, EventKind.WRITE: likes.writes[any(it.breaking for it in others)] * busy,
            EventKind.READ: likes.reads * busy,
            EventKind.CLOSE: 0.7 * likes.closes * busy, EventKind.FLUSH: 0.4 * busy,
            EventKind.CUT: likes.cuts * (1.0 if alone and not left else 0.1 * busy),
            EventKind.EXPIRE: likes.timers if peer.breaking else 0, EventKind.SCAVENGE: scavenge,
        }

    def _event(self, kind: EventKind, client: int) -> Event:
        words: dict[EventKind, Callable[[], tuple[str, ...]]] = {
            EventKind.OPEN: partial(self._open, client), EventKind.WRITE: self._write, EventKind.CLOSE: self._file,
            EventKind.READ: self._file, EventKind.FLUSH: self._file, EventKind.EXPIRE: self._file,
            EventKind.SCAVENGE: self._file,
        }
        return Event(kind, client, words[kind]() if kind in words else ())

    def _file(self) -> tuple[str, ...]:
        return (str(self._chance.randint(1, self.files)),)

    def _open(self, client: int) -> tuple[str, ...]:
        likes = self._temper
        liked = (its[client - 1] for its in (likes.accesses, likes.shares, likes.wants))
        words = (*self._file(), *(self._chance.choice(its) for its in liked))
        return (*words, "durable") if self._chance.random() < likes.durable else words

    def _write(self) -> tuple[str, ...]:
        """Each write has a byte of its own, so that a file shows whose write it has."""
        self._written = self._written % 200 + 1
        return (*self._file(), str(self._chance.randint(0, 3)), f"{self._written:02x}")


def aimed_setup() -> Schedule:
    """What the schedules that aim begin with."""
    return setup_of(CLIENTS, FILES)


def setup_of(clients: int, files: int) -> Schedule:
    guids = tuple(uuid.UUID(bytes=bytes([16 * number + number]) * 16) for number in range(1, clients + 1))
    return Schedule(files * (FILE,), guids, ())


def blind_schedule(chooser: Chooser) -> Schedule:
    """All clients connect, and then events come as they may."""
    setup = chooser.setup()
    connects = [Event(EventKind.CONNECT, client) for client in range(1, chooser.clients + 1)]
    return setup.with_events((*connects, *(chooser.blind() for _ in range(chooser.length))))
