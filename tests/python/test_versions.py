"""Leases and durable opens of version 2 over a manager: what is sent, compared with a plain model in random runs of all calls."""
from __future__ import annotations

import random
import uuid
from typing import Callable, Optional

import pytest

from smblease import Access, Acknowledgment, Extent, LeaseState, Manager, Rules, Share, Versions
from smblease.manager_decisions import Breaks, Decisions, Opened, Waits
from tests.python import version_bytes as layout
from tests.python.drawn_calls import ALL_RULES
from tests.python.version_model import Carried, Create, Lease, Model

CALLS, MANY_CALLS = 4_000, 100_000
TIMEOUT = 60_000
FILES, CLIENTS = (1, 2), (1, 2, 3)
KEYS = [bytes([it]) * 16 for it in range(1, 4)]
GUIDS = [bytes([it]) * 16 for it in range(0x51, 0x54)]
STATES = [0, 1, 3, 5, 7]


class Difference(Exception):
    """What is sent isn't what the model says."""


class Play:
    """A host of random clients, which follows each decision and compares its message."""

    def __init__(self, chooser: random.Random, rules: Rules, model: Model) -> None:
        self.chooser, self.model = chooser, model
        self.manager = Manager(rules)
        self.versions = Versions(self.manager)
        self.connected: set[int] = set()
        self.opens: dict[int, int] = {}
        self.waiting: dict[int, tuple[int, int]] = {}
        self.breaks: list[tuple[int, uuid.UUID, LeaseState]] = []
        self.timers: list[int] = []
        self.tag = 0

    def follow(self, decided: Decisions) -> None:
        for index, decision in enumerate(decided):
            sent = self.versions.follow(index, TIMEOUT)
            wanted = expected(decision, self.model.follow(decision))
            if not wanted(sent):
                raise Difference(f"{decision}: {sent.hex()}")
            if isinstance(decision, Opened):
                self.opens[decision.file_id] = decision.client
            elif isinstance(decision, Breaks) and decision.timer is not None:
                self.breaks.append((decision.client, decision.notification.key, decision.notification.new))
                self.timers.append(decision.timer)
            elif not isinstance(decision, Waits) and getattr(decision, "tag", None) in self.waiting:
                del self.waiting[getattr(decision, "tag")]

    def create(self) -> None:
        client, file = self.chooser.choice(sorted(self.connected)), self.chooser.choice(FILES)
        contexts, wanted = self.drawn_contexts()
        replay = self.chooser.random() < 0.2
        self.tag += 1
        asked = self.versions.asked(client, self.tag, layout.chain(contexts), replay)
        status, again = self.model.refusal(client, wanted, replay)
        if asked.status != status or (asked.again in again) != bool(again):
            raise Difference(f"{contexts}, replay {replay}: {asked}, and not {status}, {again}")
        if asked.ask is None:
            return
        self.model.asked[client, self.tag] = wanted
        self.waiting[self.tag] = client, file
        share = self.chooser.choice([Share.READ_WRITE, Share.READ_WRITE, Share.READ])
        self.follow(self.manager.create(client, self.tag, file, self.chooser.choice(list(Access)), share, asked.ask))

    def drawn_contexts(self) -> tuple[list[tuple[bytes, bytes]], Create]:
        contexts, wanted = [], Create()
        if self.chooser.random() < 0.85:
            lease = self.drawn_lease()
            contexts.append((b"RqLs", lease.write()))
            if lease.epoch is not None:
                wanted.epoch, wanted.parent = lease.epoch, lease.parent if lease.flags else None
        kind, guid = self.chooser.random(), self.chooser.choice(GUIDS)
        if kind < 0.3:
            contexts.append(layout.durable_request(guid))
            wanted.guid = guid
        elif kind < 0.4:
            contexts.append(layout.FIRST_DURABLE)
        elif kind < 0.6 and self.opens:
            wanted.reconnects = self.chooser.choice(sorted(self.opens))
            if self.chooser.random() < 0.7:
                wanted.guid = guid
            contexts.append(layout.durable_reconnect(guid, wanted.reconnects) if wanted.guid
                            else layout.first_reconnect(wanted.reconnects))
        self.chooser.shuffle(contexts)
        return contexts, wanted

    def drawn_lease(self) -> layout.Lease:
        key, state = self.chooser.choice(KEYS), self.chooser.choice(STATES)
        if self.chooser.random() < 0.2:
            return layout.Lease(key, state)
        flags = self.chooser.choice([0, layout.PARENT_SET])
        return layout.Lease(key, state, flags, self.chooser.choice([0, 7, 65_534, 65_535]),
                            self.chooser.choice(KEYS) if flags else bytes(16))

    def close(self) -> None:
        if not self.opens:
            return
        file_id = self.chooser.choice(sorted(self.opens))
        client = self.opens[file_id]
        if client in self.connected:
            self.tag += 1
            self.versions.closing(client, self.tag, file_id)
            self.model.asked[client, self.tag] = file_id
            self.follow(self.manager.close_open(client, self.tag, file_id))

    def acknowledge(self) -> None:
        if self.breaks:
            client, key, state = self.breaks.pop(self.chooser.randrange(len(self.breaks)))
            self.follow(self.manager.acknowledge(client, Acknowledgment(key, state)))

    def run_out(self) -> None:
        if self.timers:
            self.follow(self.manager.run_out(self.timers.pop(0)))

    def cut(self) -> None:
        client = self.chooser.choice(sorted(self.connected))
        self.connected.discard(client)
        self.follow(self.manager.cut(client))
        self.versions.forget(client)
        self.model.forget(client)

    def leave(self) -> None:
        client = self.chooser.choice(sorted(self.connected))
        opens = [it for it, owner in self.opens.items() if owner == client and self.chooser.random() < 0.3]
        tags = [it for it, (owner, _) in self.waiting.items() if owner == client and self.chooser.random() < 0.5]
        self.follow(self.manager.leave(client, opens, tags))
        self.versions.leave(client, tags)
        self.model.leave(client, tags)
        for tag in tags:
            del self.waiting[tag]

    def withdraw(self) -> None:
        if self.waiting:
            tag, (client, file) = self.chooser.choice(sorted(self.waiting.items()))
            self.follow(self.manager.withdraw(client, tag, file))

    def scavenge(self) -> None:
        if self.opens:
            self.follow(self.manager.scavenge(self.chooser.choice(sorted(self.opens))))

    def give_up(self) -> None:
        self.follow(self.manager.give_up(1, None, self.chooser.choice(FILES), self.chooser.choice(list(Extent))))

    def step(self) -> None:
        for client in CLIENTS:
            if client not in self.connected and (not self.connected or self.chooser.random() < 0.3):
                self.manager.join(client)
                self.connected.add(client)
        self.chooser.choices([self.create, self.close, self.acknowledge, self.run_out, self.cut, self.leave, self.withdraw,
                              self.scavenge, self.give_up], [40, 22, 20, 1, 2, 2, 4, 2, 2])[0]()
        self.waiting = {tag: it for tag, it in self.waiting.items() if self.manager.waiting(it[0], tag, it[1])}
        self.opens = {it: owner for it, owner in self.opens.items() if self.manager.has_open(it)}


def expected(decision: object, carried: Optional[Carried]) -> Callable[[bytes], bool]:
    """Whether bytes are those of the decision."""
    if isinstance(decision, Opened):
        assert carried is not None
        answer, contexts = decision.answer, {}
        if answer.key:
            flags = (layout.BREAKING if answer.breaking else 0) | (layout.PARENT_SET if carried.parent else 0)
            contexts[b"RqLs"] = layout.Lease(answer.key.bytes, answer.state.value, flags, carried.epoch,
                                             carried.parent or bytes(16)).write()
        if carried.has_second_durable:
            contexts[b"DH2Q"] = TIMEOUT.to_bytes(4, "little") + bytes(4)
        elif answer.durable:
            contexts[b"DHnQ"] = bytes(8)
        return lambda sent: layout.links(sent) == contexts
    if isinstance(decision, Breaks):
        assert carried is not None
        text, epoch = decision.notification.write(), carried.epoch or 0
        return lambda sent: layout.new_epoch(sent) == epoch and sent[:2] + sent[4:] == text[:2] + text[4:]
    return lambda sent: not sent


def played(chooser: random.Random, count: int, rules: Rules, model: Model) -> Optional[Difference]:
    """The first difference of so many calls."""
    play = Play(chooser, rules, model)
    try:
        for _ in range(count):
            play.step()
    except Difference as found:
        return found
    return None


@pytest.mark.parametrize("count", [CALLS, pytest.param(MANY_CALLS, marks=pytest.mark.long)])
@pytest.mark.parametrize("rules", ALL_RULES, ids=str)
def test_random_calls(rules: Rules, count: int, chooser: random.Random) -> None:
    assert played(chooser, count, rules, Model()) is None


class RisesAtNoGrant(Model):
    def _granted(self, name: tuple[int, bytes], create: Create, state: int, breaking: bool) -> Lease:
        lease = self.leases.get(name)
        if lease is not None and not lease.breaking:
            lease.state = state
        return super()._granted(name, create, state, breaking)


class TakesALaterParent(Model):
    def _granted(self, name: tuple[int, bytes], create: Create, state: int, breaking: bool) -> Lease:
        lease = super()._granted(name, create, state, breaking)
        lease.parent = create.parent
        return lease


class RisesWithoutABreak(Model):
    def _broken(self, decision: Breaks) -> Carried:
        carried = super()._broken(decision)
        return Carried((carried.epoch or 0) + 1)


class KeepsNoGuid(Model):
    def _opened(self, decision: Opened) -> Carried:
        carried = super()._opened(decision)
        client, key, _ = self.opens[decision.file_id]
        self.opens[decision.file_id] = client, key, None
        return carried


class ForgetsNothing(Model):
    def forget(self, client: int) -> None:
        """What it asked stays, and waits for ever."""


@pytest.mark.parametrize("mistaken", [RisesAtNoGrant, TakesALaterParent, RisesWithoutABreak, KeepsNoGuid, ForgetsNothing])
def test_a_mistake_is_seen(mistaken: Callable[[], Model], chooser: random.Random) -> None:
    assert any(played(chooser, 20_000, rules, mistaken()) for rules in ALL_RULES)


def test_a_break() -> None:
    """As smbd 4.17 was seen to do: an epoch one above that which was asked, and one more for a break."""
    with Manager(Rules.of("by-key,whole")) as manager, Versions(manager) as versions:
        manager.join(1)
        manager.join(2)
        lease = layout.Lease(KEYS[0], 7, layout.PARENT_SET, 4, KEYS[1])
        asked = versions.asked(1, 10, layout.chain([(b"RqLs", lease.write()), layout.durable_request(GUIDS[0])]))
        assert asked.ask is not None
        manager.create(1, 10, 5, Access.READ_WRITE, Share.READ_WRITE, asked.ask)
        answer = layout.links(versions.follow(0, TIMEOUT))
        assert layout.Lease.read(answer[b"RqLs"]) == layout.Lease(KEYS[0], 7, layout.PARENT_SET, 5, KEYS[1])
        assert answer[b"DH2Q"] == bytes.fromhex("60ea000000000000")
        manager.create(2, 20, 5, Access.READ, Share.READ_WRITE)
        assert layout.new_epoch(versions.follow(0)) == 6
        assert versions.asked(1, 11, layout.chain([layout.durable_request(GUIDS[0])])).status == 0xC000022A
        assert versions.asked(1, 12, layout.chain([layout.durable_request(GUIDS[0])]), replay=True).again == 1
        assert versions.asked(2, 13, layout.chain([layout.durable_reconnect(GUIDS[1], 1)])).status == 0xC0000034
        assert versions.asked(2, 14, b"RqLs").status == 0xC000000D


def test_numbers_that_stand_for_nothing() -> None:
    manager = Manager(Rules.of("by-key,whole"))
    versions = Versions(manager)
    with pytest.raises(ValueError, match="stands for nothing"):
        versions.follow(0)
    manager.close()
    with pytest.raises(ValueError, match="is closed"):
        versions.follow(0)
    versions.close()
    calls: list[Callable[[], object]] = [lambda: versions.asked(1, 1, b""), lambda: versions.closing(1, 1, 1),
                                         lambda: versions.forget(1), lambda: versions.leave(1, [1])]
    for call in calls:
        with pytest.raises(ValueError, match="is closed"):
            call()
