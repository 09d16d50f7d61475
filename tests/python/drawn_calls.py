"""Random calls of a manager of leases: few clients, files and keys, so that they meet, by numbers from all over 64 bits."""
from __future__ import annotations

import random
import uuid
from typing import Callable, Optional, Sequence, TypeVar

from smblease import Access, Acknowledgment, CreateAsk, Extent, LeaseState, Rules, Share
from smblease.values import Order, Rise
from tests.python.seen_calls import Call, Known, Seen

LAST = (1 << 64) - 1
NUMBERS = (0, 1, 2, 3, 255, 256, (1 << 32) - 1, 1 << 32, (1 << 63) - 1, 1 << 63, (1 << 63) + 1, LAST - 1, LAST)
STATES = tuple(map(LeaseState, range(8)))
WANTED = (*STATES, *18 * (LeaseState.of("RWH"),), *3 * (LeaseState.of("RH"), LeaseState.of("RW"), LeaseState.R))
ALL_RULES = tuple(Rules(order, rise) for order in Order for rise in Rise)
# How many calls one manager is given.
CALLS = 250
EXTENTS = tuple(Extent)
T = TypeVar("T")
Draw = Callable[[], Call]


def drawn_numbers(chance: random.Random, count: int) -> list[int]:
    """Different ones, some of which differ in one bit."""
    any_number = chance.getrandbits(64)
    near = tuple(any_number ^ 1 << bit for bit in (0, 7, 8, 31, 32, 63))
    return chance.sample(sorted({*NUMBERS, any_number, *near}), count)


class Drawer:
    """Draws the calls of one manager. `seen` has to note what each gives."""

    def __init__(self, chance: random.Random, rules: Optional[Rules] = None) -> None:
        self._chance = chance
        self.rules = rules or chance.choice(ALL_RULES)
        self.files = chance.choice((*9 * (LAST,), 2, 2, 1))
        self._clients = drawn_numbers(chance, chance.choice((2, 3, 3, 4)))
        self._files = [it for it in drawn_numbers(chance, chance.choice((3, 3, 5))) if it] if self.files == LAST else [1, 2]
        parts = drawn_numbers(chance, 4), drawn_numbers(chance, 4)
        self._keys = [uuid.UUID(int=one << 64 | other) for one, other in zip(*parts)][:chance.choice((2, 2, 3, 4))]
        self._tag = chance.choice(NUMBERS)
        # how often opens are closed: where there are few, each may cache more
        self._closing = chance.choice((0.1, 0.15, 0.3, 1))
        # how often the first file is asked for, before any of them is
        self._first_file = chance.choice((0, 0.5, 0.8))
        self.seen = Seen(self._clients)
        self._questions = self._questions_of_opens() + self._questions_of_leases()

    # ---- numbers

    def _is(self, share: float) -> bool:
        return self._chance.random() < share

    def _one_of(self, latest: Sequence[T], other: Callable[[], T], share: float = 0.85) -> T:
        """Mostly one of the latest."""
        return self._chance.choice(latest) if latest and self._is(share) else other()

    def _client(self) -> int:
        return self._chance.choice(self._clients)

    def _file(self) -> int:
        return self._files[0] if self._is(self._first_file) else self._chance.choice((*7 * self._files, *NUMBERS[:2]))

    def _key(self) -> uuid.UUID:
        return self._chance.choice(self._keys)

    def _maybe_key(self) -> Optional[uuid.UUID]:
        return self._key() if self._is(0.75) else None

    def _any_number(self) -> int:
        return self._chance.choice((self._chance.getrandbits(64), self._chance.randint(0, len(self.seen.known) + 4), LAST))

    def _open(self) -> Known:
        """Mostly one that is there."""
        return self._one_of(list(self.seen.known.values())[-8:], self._no_open, 0.95)

    def _no_open(self) -> Known:
        return self._one_of(self.seen.gone, lambda: Known(self._any_number(), self._client(), self._file(), None), 0.8)

    def _free_tag(self) -> int:
        """One under which nothing waits; it may have been used before."""
        while True:
            self._tag = self._chance.choice(((self._tag + 1) & LAST, self._chance.getrandbits(64), self._chance.randint(0, 6)))
            if self._tag not in self.seen.asked:
                return self._tag

    # ---- calls

    def _create(self) -> Call:
        chance = self._chance
        reconnects = self._reconnect() if self._is(0.4 if self.seen.left else 0.05) else None
        if reconnects:
            client, file, ask = reconnects
        else:
            key = self._key() if self._is(0.8) else None
            client, file = self._client(), self._file()
            ask = CreateAsk(key, chance.choice(WANTED), durable=self._is(0.7))
        access = chance.choice((Access.READ_WRITE, Access.READ_WRITE, *Access))
        share = chance.choice((*11 * (Share.READ_WRITE,), *Share))
        return Call("create", (client, self._free_tag(), file, access, share, ask))

    def _reconnect(self) -> tuple[int, int, CreateAsk]:
        """Of an open that waits for its client, in most of its parts."""
        one = self._one_of([self.seen.known[it] for it in sorted(self.seen.left)], self._open)
        client, file = self._mostly(one.client, self._client, 0.75), self._mostly(one.file, self._file)
        key, file_id = self._mostly(one.key, self._maybe_key), self._mostly(one.file_id, self._any_number)
        return client, file, CreateAsk(key, self._chance.choice(WANTED), durable=self._is(0.2), reconnect=file_id)

    def _mostly(self, right: T, other: Callable[[], T], share: float = 0.93) -> T:
        return right if self._is(share) else other()

    def _by_open(self, name: str, *more: object) -> Call:
        one = self._open()
        return Call(name, (self._mostly(one.client, self._client), self._free_tag(), one.file_id, *more))

    def _read(self) -> Call:
        return self._by_open("read")

    def _write(self) -> Call:
        return self._by_open("write", self._is(0.95))

    def _close(self) -> Call:
        return self._by_open("close_open")

    def _join(self) -> Call:
        return Call("join", (self._one_of(sorted(self.seen.away), self._client),))

    def _cut(self) -> Call:
        return Call("cut", (self._client(),))

    def _acknowledge_malformed(self) -> Call:
        return Call("acknowledge_malformed", (self._client(),))

    def _withdraw(self) -> Call:
        return Call("withdraw", self._waiting())

    def _acknowledge(self) -> Call:
        """Mostly of a break, with the state of its notification, less, or any."""
        chance = self._chance
        if not self.seen.breaks or self._is(0.1):
            return Call("acknowledge", (self._client(), Acknowledgment(self._key(), chance.choice(STATES))))
        one = chance.choice(self.seen.breaks)
        new = one.notification.new
        state = chance.choice((new, new, new, new & chance.choice(STATES), new | chance.choice(STATES), chance.choice(STATES)))
        key = self._mostly(one.notification.key, self._key)
        return Call("acknowledge", (self._mostly(one.client, self._client), Acknowledgment(key, state)))

    def _run_out(self) -> Call:
        return Call("run_out", (self._one_of(self.seen.timers, self._any_number),))

    def _expire(self) -> Call:
        names = [(it.client, it.notification.key) for it in self.seen.breaks]
        return Call("expire", self._one_of(names, lambda: (self._client(), self._key())))

    def _scavenge(self) -> Call:
        return Call("scavenge", (self._one_of(sorted(self.seen.left), lambda: self._open().file_id),))

    def _leave(self) -> Call:
        """Opens of anybody, the first of them mostly the client's own."""
        chance, one = self._chance, self._open()
        opens = [one.file_id, *(self._open().file_id for _ in range(chance.randint(0, 4)))]
        tags = [self._one_of(list(self.seen.asked), self._any_number) for _ in range(chance.randint(0, 3))]
        return Call("leave", (self._mostly(one.client, self._client), opens[chance.randint(0, 1):], tags))

    def _waiting(self) -> tuple[int, int, int]:
        """The client, tag and file of a request or a change that waits, in most of its parts."""
        if not self.seen.asked or self._is(0.15):
            return self._client(), self._any_number(), self._file()
        asked = self._chance.choice(list(self.seen.asked.values()))
        client, tag, *_ = asked.arguments
        file = self._file_asked(asked)
        return self._mostly(client, self._client), self._mostly(tag, self._any_number), self._mostly(file, self._file)

    def _file_asked(self, asked: Call) -> int:
        """That which a request or a change is of."""
        _, _, named, *more = asked.arguments
        if asked.name == "change":
            return int(more[0])
        known = self.seen.known.get(named)
        return int(named) if asked.name == "create" else known.file if known else self._file()

    def _give_up(self) -> Call:
        return Call("give_up", (self._client(), self._maybe_key(), self._file(), self._chance.choice(EXTENTS)))

    def _change(self) -> Call:
        """Mostly of a client, and else of the host."""
        client = self._mostly(self._client(), self._any_number)
        return Call("change", (client, self._free_tag(), self._maybe_key(), self._file(), self._chance.choice(EXTENTS)))

    def _restart(self) -> Call:
        return Call("restart", ())

    def call(self) -> Call:
        """The next one."""
        opens, left, breaks = len(self.seen.known), len(self.seen.left), len(self.seen.breaks)
        weights: dict[Draw, float] = {
            self._create: 6, self._read: 2, self._write: 4, self._close: 0.2 + self._closing * opens, self._withdraw: 0.6,
            self._acknowledge: 0.5 + breaks, self._acknowledge_malformed: 0.4, self._give_up: 0.5, self._change: 0.8,
            self._run_out: 0.2 + 0.1 * breaks, self._expire: 0.05 + 0.1 * breaks, self._scavenge: 0.1 + 0.1 * left,
            self._join: 0.2 + len(self.seen.away), self._cut: 0.6, self._leave: 0.6, self._restart: 0.04,
        }
        return self._chance.choices(list(weights), list(weights.values()))[0]()

    def question(self) -> Call:
        """Any of them."""
        return self._chance.choice(self._questions)()

    def _questions_of_opens(self) -> tuple[Draw, ...]:
        return (lambda: Call("left_behind", (self._one_of(sorted(self.seen.left), lambda: self._open().file_id, 0.5),)),
                lambda: Call("has_open", (self._open().file_id,)),
                lambda: self._of_owner("may_read"),
                lambda: self._of_owner("may_write"),
                lambda: Call("opens", ()),
                lambda: Call("leases", ()),
                lambda: Call("requests", ()),
                lambda: Call("changes", ()),
                lambda: Call("open_count", ()))

    def _questions_of_leases(self) -> tuple[Draw, ...]:
        any_of = self._chance.choice
        return (lambda: Call("connected", (self._client(),)),
                lambda: Call("breaking", (self._client(), self._key())),
                lambda: Call("lease", (self._client(), self._key())),
                lambda: Call("waiting", self._waiting()),
                self._kept,
                lambda: Call("given_up", (self._client(), self._maybe_key(), self._file(), any_of(EXTENTS))),
                lambda: Call("allowed", (self._client(), self._maybe_key(), self._file(), any_of(STATES))))

    def _kept(self) -> Call:
        one = self.seen.known[min(self.seen.left)] if self.seen.left and self._is(0.7) else self._open()
        return Call("kept", (self._mostly(one.client, self._client), self._mostly(one.file, self._file)))

    def _of_owner(self, name: str) -> Call:
        one = self._open()
        return Call(name, (self._mostly(one.client, self._client), one.file_id))
