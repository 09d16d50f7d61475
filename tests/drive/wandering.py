"""Random clients of a real server: each has one ClientGuid, some connections, and lease keys of its own for each file.

They open files, read, write, rename and delete them, close them and open them again under the same key, acknowledge breaks or
leave them, and lose connections. What they choose is drawn from a seed; what comes of it depends on the server's time too.
"""
from __future__ import annotations

import random
import struct
from collections.abc import Callable
from contextlib import suppress
from dataclasses import dataclass, field, replace
from functools import partial
from typing import Any

from smblease.drive.place import Server

from tests.drive.hand_made import H, PENDING, R, W, message
from tests.drive.wander_wire import (DATA, DELETE, OPEN, OPEN_IF, OVERWRITE_IF, READ_ATTRIBUTES, READ_DATA, WRITE_DATA, Ask,
                                     Channel, Lost, acknowledges, closes, closes_the_last, deletes, reads, renames, writes)

NAMES = ("f", "g", "h")
STATES = (R, R | H, R | W, R | W | H, R | W | H, 0)
WISHES = (STATES, (R | W | H,), (R | W | H, R | H))
ALL, NO_WRITES, NONE = 7, 5, 0
# for how long something that comes unasked is waited for, and an answer
MOMENT, PATIENCE = 0.004, 0.25
OPLOCK_BREAK, LOGOFF, TREE_DISCONNECT = 18, 2, 4


@dataclass
class Opened:
    """An open that a client has, by its FileId, on a connection; the file is known by a number of its own."""

    file_id: bytes
    channel: Channel
    file: int
    ask: Ask


@dataclass
class Break:
    key: int
    left: int
    channel: Channel


@dataclass
class Wanderer:
    """A client."""

    number: int
    channels: list[Channel] = field(default_factory=list)
    opens: list[Opened] = field(default_factory=list)
    breaks: list[Break] = field(default_factory=list)
    epochs: dict[int, int] = field(default_factory=dict)

    @property
    def guid(self) -> bytes:
        return bytes([17 * self.number] * 16)


@dataclass(frozen=True)
class Asks:
    """What clients ask for when they open a file: leases, sharing, and how often QFid, attributes alone, leases of version 1
    where those of version 2 are known, and durable opens."""

    leases: tuple[int, ...]
    shares: tuple[int, ...] = (ALL,)
    numbers: float = 1.0
    attributes: float = 0.0
    firsts: float = 1.0
    durable: float = 0.0


@dataclass(frozen=True)
class Ways:
    """What the clients of a run like to do."""

    dialect: str
    clients: int
    names: tuple[str, ...]
    asks: Asks
    # how likely each move is
    weights: dict[str, float]
    length: int
    # how many connections a client has at most
    most: int = 1
    # how often they wait for what comes before they go on, and acknowledge a break as they may
    waits: float = 1.0
    answers: float = 1.0
    multichannel: bool = False
    # whether the run begins with a client that comes back
    returns: bool = False


def drawn_ways(chance: random.Random, dialect: str) -> Ways:
    one_of = chance.choice
    asks = Asks(one_of(WISHES), one_of(((ALL,), (ALL, ALL, ALL, NO_WRITES, NONE))), one_of((0.0, 0.7, 1.0, 1.0)),
                one_of((0.0, 0.0, 0.1, 0.3)), one_of((0.0, 0.5)) if dialect != "2.1" else 1.0, one_of((0.0, 0.3, 0.7)))
    weights = {"opens": 6.0, "reads": 2.0, "writes": 2.0, "closes": one_of((1.0, 3.0)), "opens again": 3.0,
               "renames": one_of((0.0, 0.0, 0.3, 1.0)), "deletes": one_of((0.0, 0.0, 0.2)), "loses": one_of((0.0, 0.5, 1.0)),
               "connects": 0.5, "peeks": one_of((0.0, 0.5)), "leaves": one_of((0.0, 0.2)), "expires": one_of((0.0, 0.3))}
    return Ways(dialect, one_of((2, 2, 3)), NAMES[:one_of((1, 1, 2, 3))], asks, weights, one_of((40, 80, 120)),
                one_of((1, 1, 2, 3)), one_of((0.3, 0.7, 1.0)), one_of((0.5, 0.9, 1.0)), one_of((False, True)),
                chance.random() < 0.15)


def quiet_ways(dialect: str) -> Ways:
    """Of clients that open one file, read it and keep it open: they hold leases side by side for long."""
    weights = {"opens": 3.0, "opens again": 3.0, "reads": 6.0, "writes": 0.2, "closes": 2.0}
    return Ways(dialect, 3, NAMES[:1], Asks((R, R | H, R | W | H), firsts=0.5 if dialect != "2.1" else 1.0), weights, 120)


class Wandering:
    """A run; `server` is started, with its share empty."""

    def __init__(self, chance: random.Random, ways: Ways, server: Server) -> None:
        self._chance, self._ways, self._server = chance, ways, server
        self._wanderers = [Wanderer(number + 1) for number in range(ways.clients)]
        self._asked: dict[tuple[Channel, int], Callable[[bytes], None]] = {}
        self._pending: set[tuple[Channel, int]] = set()
        # the numbers of the files that have a name now
        self._files: dict[str, int] = {}
        self._made = 0
        self._processes: dict[Channel, int | None] = {}
        self._moves: dict[str, Callable[[Wanderer], None]] = {
            "opens": self._opens, "reads": self._reads, "writes": self._writes, "closes": self._closes,
            "opens again": self._opens_again, "renames": self._renames, "peeks": self._peeks, "deletes": self._deletes,
            "loses": self._loses, "connects": self._connects, "leaves": self._leaves, "expires": self._expires}

    def runs(self) -> None:
        try:
            for one in self._wanderers:
                self._connects(one)
            if self._ways.returns:
                self._returns(*self._wanderers[:2])
            for _ in range(self._ways.length):
                one = self._one_of(self._wanderers)
                if not one.channels:
                    self._connects(one)
                elif one.breaks and self._happens(0.6):
                    self._answers(one, one.breaks.pop(0))
                else:
                    kinds = list(self._ways.weights)
                    self._moves[self._chance.choices(kinds, list(self._ways.weights.values()))[0]](one)
                self._takes(self._happens(self._ways.waits))
            self._takes(True)
        finally:
            for one in self._wanderers:
                for channel in one.channels:
                    channel.closes()

    def _one_of(self, items: Any) -> Any:
        return self._chance.choice(items)

    def _happens(self, probability: float) -> bool:
        return self._chance.random() < probability

    # ---- connections

    def _connects(self, one: Wanderer) -> None:
        if len(one.channels) >= self._ways.most:
            return
        try:
            channel = Channel(self._server.place, one.guid, self._ways.dialect)
        except Lost:
            # (smbd closes a connection that it would hand to the process of another one, which is about to end)
            return
        one.channels.append(channel)
        self._processes[channel] = None if self._ways.multichannel else self._server.new_process()

    def _loses(self, one: Wanderer) -> None:
        self._forgets(one, self._one_of(one.channels))

    def _leaves(self, one: Wanderer) -> None:
        """It leaves its tree or its session, and then its connection."""
        channel = self._one_of(one.channels)
        with suppress(Lost):
            channel.sends(lambda it: message(self._one_of((TREE_DISCONNECT, LOGOFF)), b"\x04\0\0\0", it))
            channel.received(PATIENCE)
        self._forgets(one, channel)

    def _forgets(self, one: Wanderer, channel: Channel) -> None:
        channel.closes()
        one.channels.remove(channel)
        one.opens = [it for it in one.opens if it.channel is not channel]
        one.breaks = [it for it in one.breaks if it.channel is not channel]
        self._asked = {place: taken for place, taken in self._asked.items() if place[0] is not channel}

    def _expires(self, one: Wanderer) -> None:
        """The break timers of a connection run out."""
        process = self._processes[one.breaks[0].channel] if one.breaks else None
        if process is not None:
            self._server.begin_break_timer(process, one.guid, b"")
            self._takes(True)
            self._server.end_break_timer(process)

    # ---- requests

    def _asks(self, channel: Channel, made: Callable[[int], bytes], taken: Callable[[bytes], None] = lambda _: None) -> None:
        with suppress(Lost):
            self._asked[channel, channel.sends(made)] = taken

    def _opens(self, one: Wanderer) -> None:
        name, asks = self._one_of(self._ways.names), self._ways.asks
        rights = READ_ATTRIBUTES if self._happens(asks.attributes) else self._one_of((DATA, DATA, READ_DATA, WRITE_DATA))
        rights |= READ_ATTRIBUTES | (DELETE if self._happens(0.6) else 0)
        key = self._key(one, name) if self._happens(0.85) else 0
        self._creates(one, Ask(name, rights, self._one_of(asks.shares), key, self._one_of(asks.leases), self._epoch(one, key),
                               self._one_of((OPEN_IF,) * 8 + (OPEN, OVERWRITE_IF)), self._happens(asks.numbers),
                               self._happens(asks.durable)))

    def _key(self, one: Wanderer, name: str) -> int:
        """The client's own for the file of a name; seldom another one of it."""
        return 1 + (one.number - 1) * 80 + (2 * self._file(name) + self._happens(0.07)) % 80

    def _epoch(self, one: Wanderer, key: int) -> int | None:
        """For a lease of version 2, or none for one of version 1."""
        return None if self._happens(self._ways.asks.firsts) else one.epochs.get(key, 0)

    def _file(self, name: str) -> int:
        """The number of the file of a name, which is another one where none has it now."""
        if name not in self._files:
            self._made += 1
            self._files[name] = self._made
        return self._files[name]

    def _returns(self, one: Wanderer, other: Wanderer) -> None:
        """A client loses its connection while it has a file open for itself, durably. Another one opens that file, and then it
        comes back and opens it again under the same key."""
        name = self._ways.names[0]
        key, its = self._key(one, name), self._key(other, name)
        ask = Ask(name, DATA | READ_ATTRIBUTES, ALL, key, R | W | H, self._epoch(one, key), asks_number=True, is_durable=True)
        for client, wanted in ((one, ask), (other, replace(ask, key=its, state=R | H, epoch=self._epoch(other, its)))):
            self._creates(client, wanted)
            self._takes(True)
            if client is one and one.channels:
                self._loses(one)
        self._connects(one)
        self._creates(one, replace(ask, epoch=None if ask.epoch is None else one.epochs.get(key, 0)))
        self._takes(True)
        self._reads(other)

    def _opens_again(self, one: Wanderer) -> None:
        """A file that it has open already, mostly under the same key."""
        if one.opens:
            had = self._one_of(one.opens)
            name = next((it for it, file in self._files.items() if file == had.file), had.ask.name)
            epoch = None if had.ask.epoch is None else one.epochs.get(had.ask.key, 0)
            self._creates(one, replace(had.ask, name=name, state=self._one_of(self._ways.asks.leases), epoch=epoch,
                                       disposition=OPEN_IF))

    def _creates(self, one: Wanderer, ask: Ask) -> None:
        if one.channels:
            channel = self._one_of(one.channels)
            self._asks(channel, ask.message, partial(self._opened, one, channel, ask, self._file(ask.name)))

    def _with_one(self, one: Wanderer, right: int) -> Opened | None:
        opens = [it for it in one.opens if it.ask.access & right == right]
        return self._one_of(opens) if opens else None

    def _peeks(self, one: Wanderer) -> None:
        """It opens a file and closes it again in one frame, mostly for its attributes alone."""
        ask = Ask(self._one_of(self._ways.names), self._one_of((READ_ATTRIBUTES, READ_ATTRIBUTES, READ_DATA)), ALL, 0, 0,
                  disposition=OPEN, asks_number=self._happens(self._ways.asks.numbers))
        with suppress(Lost):
            self._one_of(one.channels).sends(ask.message, closes_the_last)

    def _reads(self, one: Wanderer) -> None:
        if had := self._with_one(one, READ_DATA):
            self._asks(had.channel, partial(reads, had.file_id))

    def _writes(self, one: Wanderer) -> None:
        if had := self._with_one(one, WRITE_DATA):
            self._asks(had.channel, partial(writes, had.file_id, self._chance.randrange(3)))

    def _closes(self, one: Wanderer) -> None:
        if one.opens:
            had = self._one_of(one.opens)
            one.opens.remove(had)
            self._asks(had.channel, partial(closes, had.file_id))

    def _renames(self, one: Wanderer) -> None:
        if had := self._with_one(one, DELETE):
            name = self._one_of(NAMES)
            self._takes(True)
            self._asks(had.channel, partial(renames, had.file_id, name), partial(self._renamed, had, name))
            self._takes(True)

    def _deletes(self, one: Wanderer) -> None:
        if had := self._with_one(one, DELETE):
            self._takes(True)
            self._asks(had.channel, partial(deletes, had.file_id), partial(self._deleted, had))
            self._takes(True)

    def _answers(self, one: Wanderer, due: Break) -> None:
        """Acknowledges a break, or leaves it, or gives up more or less than it has to."""
        if not self._happens(self._ways.answers):
            return
        state = due.left if self._happens(0.9) else due.left & self._one_of((R, R | H, 0)) if self._happens(0.8) else R | W | H
        channel = due.channel if self._happens(0.95) else self._one_of(one.channels)
        self._asks(channel, partial(acknowledges, due.key, state))

    # ---- what comes

    def _takes(self, waits: bool) -> None:
        """Takes what has come; or waits until each request is answered or pending, and for what comes unasked."""
        quiet = False
        spent = 0.0
        while not quiet:
            quiet = True
            for one in self._wanderers:
                for channel in list(one.channels):
                    while (had := self._received(one, channel, MOMENT if waits else 0)) is not None:
                        self._took(one, channel, had)
                        quiet = False
            spent += MOMENT
            if waits and spent < PATIENCE and set(self._asked) - self._pending:
                quiet = False

    def _received(self, one: Wanderer, channel: Channel, seconds: float) -> bytes | None:
        if channel not in one.channels:
            return None
        try:
            return channel.received(seconds)
        except Lost:
            self._forgets(one, channel)
            return None

    def _took(self, one: Wanderer, channel: Channel, had: bytes) -> None:
        status, identifier = struct.unpack_from("<L", had, 8)[0], struct.unpack_from("<Q", had, 24)[0]
        command = struct.unpack_from("<H", had, 12)[0]
        if command == OPLOCK_BREAK and identifier == 0xFFFFFFFFFFFFFFFF:
            self._broken(one, channel, had)
        elif status == PENDING:
            self._pending.add((channel, identifier))
        else:
            taken = self._asked.pop((channel, identifier), None)
            if taken and not status:
                taken(had)

    def _broken(self, one: Wanderer, channel: Channel, had: bytes) -> None:
        epoch, flags = struct.unpack_from("<HL", had, 66)
        key, left = had[72], struct.unpack_from("<L", had, 92)[0]
        one.epochs[key] = max(epoch, one.epochs.get(key, 0))
        if flags & 1:
            one.breaks.append(Break(key, left, channel))

    def _opened(self, one: Wanderer, channel: Channel, ask: Ask, file: int, had: bytes) -> None:
        one.opens.append(Opened(had[128:144], channel, file, ask))
        place = had.find(b"RqLs")
        if place >= 0 and ask.epoch is not None and len(had) >= place + 8 + 52:
            one.epochs[ask.key] = struct.unpack_from("<H", had, place + 8 + 48)[0]

    def _renamed(self, had: Opened, name: str, _: bytes) -> None:
        self._has_no_name(had)
        self._files[name] = had.file

    def _deleted(self, had: Opened, _: bytes) -> None:
        self._has_no_name(had)

    def _has_no_name(self, had: Opened) -> None:
        self._files = {name: file for name, file in self._files.items() if file != had.file}
