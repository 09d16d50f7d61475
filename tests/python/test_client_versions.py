"""What a client sends and its machine takes for leases of version 2, compared with a plain model in random runs of all calls."""
from __future__ import annotations

import random
import struct
import uuid
from typing import Callable, Optional

import pytest

from smblease import ClientVersions, CreateAnswer, CreateAsk, LeaseState, Notification
from tests.python import version_bytes as layout
from tests.python.client_version_model import Granted, Model, is_newer
from tests.python.version_bytes import BREAKING, PARENT_SET, Lease, chain, links

CALLS, MANY_CALLS = 4_000, 100_000
KEYS = [bytes([it]) * 16 for it in range(1, 4)]
FILE_IDS = range(1, 5)
STATES = [0, 1, 3, 5, 7]
# DH2Q of an answer (2.2.14.2.12)
GRANTED = (b"DH2Q", struct.pack("<LL", 60_000, 0))


class Difference(Exception):
    """What is sent or given isn't what the model says."""


class Play:
    """Random creates, answers and notices; their epochs lie around those that are known, or anywhere."""

    def __init__(self, chooser: random.Random, model: Model) -> None:
        self.chooser, self.model = chooser, model
        self.versions = ClientVersions()

    def step(self) -> None:
        self.chooser.choice([self.ask, self.answer, self.answer, self.notice, self.notice, self.close])()

    def guid(self) -> uuid.UUID:
        return uuid.UUID(bytes=self.chooser.randbytes(16))

    def epoch(self, key: bytes) -> int:
        near = self.model.asked_epoch(key) + self.chooser.choice([-2, -1, 0, 0, 1, 1, 2, 32767, 32768, -32767])
        return near % 65536 if self.chooser.random() < 0.9 else self.chooser.randrange(65536)

    def ask(self) -> None:
        key = self.chooser.choice(KEYS) if self.chooser.random() < 0.8 else None
        durable, file_id = self.chooser.random() < 0.5, self.chooser.choice([None, *FILE_IDS])
        parent = self.guid() if self.chooser.random() < 0.3 else None
        state, guid = self.chooser.choice(STATES), self.guid()
        asked = CreateAsk(uuid.UUID(bytes=key) if key else None, LeaseState(state) if key else LeaseState(0), durable, file_id)
        wanted: dict[bytes, bytes] = {}
        if key:
            flags = PARENT_SET if parent else 0
            parent_key = parent.bytes if parent else bytes(16)
            wanted[b"RqLs"] = Lease(key, state, flags, self.model.asked_epoch(key), parent_key).write()
        if file_id in self.model.guids:
            assert file_id is not None
            name, data = layout.durable_reconnect(self.model.guids[file_id], file_id)
            wanted[name] = data[:8] + data[:8] + data[16:]
        elif file_id is not None:
            wanted[b"DHnC"] = struct.pack("<QQ", file_id, file_id)
        elif durable:
            name, data = layout.durable_request(guid.bytes)
            wanted[name] = data
        self.same(links(self.versions.ask(asked.write(), guid, parent)), wanted)

    def answer(self) -> None:
        key, state, guid = self.chooser.choice(KEYS), self.chooser.choice(STATES), self.guid()
        breaking, is_second = self.chooser.random() < 0.2, self.chooser.random() < 0.9
        lease = Granted(key, state, breaking, self.epoch(key) if is_second else None) if self.chooser.random() < 0.9 else None
        durable = self.chooser.choice([None, GRANTED, (b"DHnQ", bytes(8))])
        file_id, in_order = self.chooser.choice(FILE_IDS), self.chooser.random() < 0.3
        sent = [] if lease is None else [(b"RqLs", Lease(key, state, BREAKING if breaking else 0, lease.epoch).write())]
        text = chain(sent + ([durable] if durable else []))
        given = CreateAnswer.read(self.versions.answered(file_id, guid, text, in_order))
        wanted = self.model.answered(file_id, guid.bytes, lease, durable is GRANTED, in_order)
        self.same((given.key and given.key.bytes, given.state.value, given.durable, given.breaking),
                  (key if lease else None, wanted or 0, durable is not None, breaking and lease is not None))

    def notice(self) -> None:
        key, before, after = self.chooser.choice(KEYS), self.chooser.choice(STATES), self.chooser.choice(STATES)
        epoch, in_order = self.epoch(key), self.chooser.random() < 0.3
        plain = Notification(uuid.UUID(bytes=key), LeaseState(before), LeaseState(after), self.chooser.random() < 0.5).write()
        given = self.versions.noticed(plain[:2] + epoch.to_bytes(2, "little") + plain[4:], in_order)
        self.same(given, plain if self.model.noticed(key, epoch, after, in_order) else None)

    def close(self) -> None:
        file_id = self.chooser.choice(FILE_IDS)
        self.versions.forget(file_id)
        self.model.closed(file_id)

    @staticmethod
    def same(found: object, wanted: object) -> None:
        if found != wanted:
            raise Difference(f"{found!r} in place of {wanted!r}")


def run(seed: int, calls: int, model: Optional[Model] = None) -> None:
    play = Play(random.Random(seed), model or Model())
    for _ in range(calls):
        play.step()


@pytest.mark.parametrize("seed", range(2))
def test_as_the_model_says(seed: int) -> None:
    run(seed, CALLS)


@pytest.mark.long
def test_many_calls_as_the_model_says() -> None:
    run(7, MANY_CALLS)


class TakesEqual(Model):
    def is_taken(self, key: bytes, epoch: int, state: int) -> bool:
        return super().is_taken(key, epoch, state) or self.leases[key] == (epoch, self.leases[key][1])


class DropsEqual(Model):
    def is_taken(self, key: bytes, epoch: int, state: int) -> bool:
        return key not in self.leases or is_newer(epoch, self.leases[key][0])


class NewerWithoutEnd(Model):
    def is_taken(self, key: bytes, epoch: int, state: int) -> bool:
        return super().is_taken(key, epoch, state) or epoch > self.leases[key][0]


class TakesAllInBreak(Model):
    def is_taken_in_break(self, key: bytes, epoch: int) -> bool:
        return True


class ForgetsItsEpoch(Model):
    def asked_epoch(self, key: bytes) -> int:
        return super().asked_epoch(key) if self.guids else 0


class KeepsGuids(Model):
    def closed(self, file_id: int) -> None:
        pass


@pytest.mark.parametrize("mistaken", [TakesEqual, DropsEqual, NewerWithoutEnd, TakesAllInBreak, ForgetsItsEpoch, KeepsGuids])
def test_a_mistake_in_the_model_is_seen(mistaken: Callable[[], Model]) -> None:
    with pytest.raises(Difference):
        run(1, CALLS, mistaken())


def test_one_connection_gives_all_as_sent() -> None:
    """Whatever the epochs are."""
    chooser, versions = random.Random(5), ClientVersions()
    for _ in range(2_000):
        key, state = chooser.choice(KEYS), chooser.choice(STATES)
        if chooser.random() < 0.5:
            plain = Notification(uuid.UUID(bytes=key), LeaseState(7), LeaseState(state), True).write()
            assert versions.noticed(plain[:2] + chooser.randbytes(2) + plain[4:], in_order=True) == plain
            continue
        sent = Lease(key, state, epoch=chooser.randrange(65536)).write()
        taken = versions.answered(1, uuid.uuid4(), chain([(b"RqLs", sent)]), in_order=True)
        assert links(taken) == {b"RqLs": Lease(key, state).write()}


@pytest.mark.parametrize("seed", range(3))
def test_random_bytes_are_refused_or_read(seed: int) -> None:
    """What can't be read changes nothing."""
    chooser, versions = random.Random(seed), ClientVersions()
    lease = CreateAsk(uuid.UUID(bytes=KEYS[0]), LeaseState(7)).write()
    before = versions.ask(lease, uuid.UUID(int=1))
    for _ in range(3_000):
        text = bytearray(chain([(b"RqLs", Lease(KEYS[0], 7, epoch=3).write()), GRANTED]))
        for _ in range(chooser.randrange(1, 4)):
            text[chooser.randrange(len(text))] = chooser.randrange(256)
        cut = bytes(text[:chooser.randrange(len(text))])
        try:
            versions.answered(1, uuid.UUID(int=2), cut)
        except ValueError:
            assert versions.ask(lease, uuid.UUID(int=1)) == before
        before = versions.ask(lease, uuid.UUID(int=1))
