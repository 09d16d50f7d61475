"""Leases of version 2 on the wire: epochs and parents' keys (3.3.5.9.11, 3.3.4.7)."""
from __future__ import annotations

import random
import struct
import uuid

import pytest

from smblease import Status
from smblease.drive.headers import Command, Message
from smblease.serve.server_process import ServerProcess
from tests.python.version_bytes import BREAKING, PARENT_SET, Lease, chain, durable_request
from tests.serve.conftest import Start
from tests.serve.modern import EVERY, NEEDED, PASSWORD, USER, Modern
from tests.serve.modern_client import ModernClient
from tests.serve.negotiating import DIALECTS, Asking, Guard
from tests.serve.requests import ECHO, Body, close, create, write
from tests.serve.second_versions import (BATCH, FIRST, GUID, LEASED, PARENT, RH, RW, RWH, SECOND, R, acknowledgment, granted,
                                         lasting, lease_in, leasing, notice)

pytestmark = NEEDED
OF_3 = [it for name, it in DIALECTS.items() if name.startswith("SMB3")]


def client_of(server: ServerProcess, modern: Modern, dialect: int = 0x0311) -> ModernClient:
    """One with a ClientGuid that no other has."""
    return modern(server, Asking((dialect,), guid=uuid.uuid4().bytes)).begin(USER, PASSWORD)


@pytest.mark.parametrize("dialect", OF_3)
@pytest.mark.parametrize("epoch, parent", [(0, None), (0x4711, PARENT), (0xFFFF, None)])
def test_a_grant(every: ServerProcess, modern: Modern, dialect: int, epoch: int, parent: bytes | None) -> None:
    """Its epoch is the next one after that which its client knows."""
    one = client_of(every, modern, dialect)
    answer = one.ask(leasing(f"granted {dialect} {epoch}", FIRST, RWH, epoch, parent))
    flags = PARENT_SET if parent else 0
    assert lease_in(answer) == Lease(FIRST, RWH, flags, (epoch + 1) % 65536, parent or bytes(16))
    assert answer.number(66, 1) == LEASED


def test_the_epoch_of_a_break(every: ServerProcess, modern: Modern) -> None:
    """It rises with a break and with a grant of more, and stays with a grant of the same and in a break."""
    one, other = (client_of(every, modern) for _ in range(2))
    assert lease_in(one.ask(leasing("broken", FIRST, RWH, 10))).epoch == 11
    assert lease_in(one.ask(leasing("broken", FIRST, RWH, 10))).epoch == 11
    number = other.send(create("broken"))
    assert notice(one.receive()) == (FIRST, RWH, RH, 12)
    assert lease_in(one.ask(leasing("broken", FIRST, RWH, 10))) == Lease(FIRST, RWH, BREAKING, 12)
    assert one.status(acknowledgment(FIRST, RH)) == Status.SUCCESS
    opened = other.answer_to(number).number(128, 8)
    assert lease_in(one.ask(leasing("broken", FIRST, RH, 10))).epoch == 12
    assert other.status(close(opened)) == Status.SUCCESS
    assert lease_in(one.ask(leasing("broken", FIRST, RWH, 10))) == Lease(FIRST, RWH, 0, 13)


@pytest.mark.parametrize("dialect", [0x0210, *OF_3])
def test_the_break_of_version_1(every: ServerProcess, modern: Modern, dialect: int) -> None:
    """It has no epoch, and no answer has one."""
    one, other = (client_of(every, modern, dialect) for _ in range(2))
    assert lease_in(one.ask(leasing(f"first {dialect}", FIRST, RWH, None))) == Lease(FIRST, RWH)
    other.send(create(f"first {dialect}"))
    assert notice(one.receive()) == (FIRST, RWH, RH, 0)


def test_both_versions_of_a_key(every: ServerProcess, modern: Modern) -> None:
    """A lease keeps the version that it was asked with first."""
    one = client_of(every, modern)
    assert lease_in(one.ask(leasing("first of two", FIRST, R, None))) == Lease(FIRST, R)
    assert lease_in(one.ask(leasing("first of two", FIRST, RH, 7))) == Lease(FIRST, RH)
    assert lease_in(one.ask(leasing("second of two", SECOND, R, 7))) == Lease(SECOND, R, 0, 8)
    assert lease_in(one.ask(leasing("second of two", SECOND, RH, None))) == Lease(SECOND, RH, 0, 9)


def test_a_lease_that_the_level_does_not_ask_for(every: ServerProcess, modern: Modern) -> None:
    """RqLs is passed over (3.3.5.9)."""
    one = client_of(every, modern)
    lease = Lease(FIRST, RWH, 0, 7).write()
    answers = [one.ask(create(f"level {it}", level=it, contexts=chain([(b"RqLs", lease)]))) for it in (0, BATCH)]
    assert [(granted(it), it.number(66, 1)) for it in answers] == [({}, 0), ({}, BATCH)]


@pytest.mark.parametrize("dialect", [DIALECTS["SMB2_02"], DIALECTS["SMB2_10"]])
def test_before_dialect_3(every: ServerProcess, modern: Modern, dialect: int) -> None:
    """What is of version 2 is passed over, whatever it asks for."""
    one = client_of(every, modern, dialect)
    for body in (leasing(f"old {dialect}", FIRST, RWH, 5, durable=GUID), lasting(f"old too {dialect}", GUID)):
        answer = one.ask(body)
        assert (granted(answer), answer.number(66, 1) == BATCH) == ({}, body == lasting(f"old too {dialect}", GUID))


SCRIPT: list[Body] = [
    leasing("one", FIRST, RWH, None), leasing("two", SECOND, RWH, 7), lasting("three", GUID), create("four", level=BATCH),
    create("one", level=LEASED, contexts=chain([(b"RqLs", Lease(FIRST, RWH).write()), (b"DHnQ", bytes(16))])),
    create("five", level=BATCH, contexts=chain([(b"DHnQ", bytes(16)), (b"QFid", b""), (b"MxAc", bytes(8))])),
    create("six", contexts=chain([(b"DH2C", struct.pack("<QQ16sL", 1, 1, bytes(16), 0))]))]


def played(server: ServerProcess, modern: Modern) -> list[bytes]:
    """What two clients of 2.1 get, one of whom breaks what the other has."""
    one, other = (modern(server, Asking((0x0210,), guid=it * 16)).begin("guest", guard=Guard.NONE) for it in (b"p", b"q"))
    found = [one.ask(it).data for it in SCRIPT]
    for name, key in (("one", FIRST), ("four", None), ("five", None)):
        number = other.send(create(name))
        broken = one.receive()
        body = acknowledgment(key, RH) if key else (Command.OPLOCK_BREAK, broken.data[64:])
        found += [broken.data, one.ask(body).data, other.answer_to(number).data]
    return found


def test_2_1_is_answered_byte_for_byte_as_where_there_is_nothing_else(start: Start, modern: Modern) -> None:
    """By servers of one seed, of which one follows versions."""
    words = ["--seed", "7", "--guests"]
    servers = [start(*words, "--user", f"{USER}%{PASSWORD}"), start(*words, *EVERY)]
    alone, among_others = (played(it, modern) for it in servers)
    assert len(alone) == len(SCRIPT) + 9 and alone == among_others


LENGTHS = [0, 1, 4, 16, 20, 31, 32, 33, 35, 36, 37, 51, 52, 53, 60, 100, 204, 1000]
NAMES = [b"RqLs", b"DHnQ", b"DHnC", b"DH2Q", b"DH2C", b"MxAc", b"QFid", bytes.fromhex("45bca66aefa7f74a9008fa462e144d74")]


def drawn(chooser: random.Random) -> bytes:
    """Contexts of any lengths, whose layout may be damaged."""
    contexts = [(chooser.choice(NAMES), chooser.randbytes(chooser.choice(LENGTHS))) for _ in range(chooser.randrange(1, 5))]
    text = bytearray(chain(contexts))
    for _ in range(chooser.choice([0, 0, 1, 3])):
        text[chooser.randrange(len(text))] = chooser.randrange(256)
    return bytes(text[:chooser.randrange(len(text) + 1)] if chooser.random() < 0.2 else text)


def test_hostile_contexts(every: ServerProcess, modern: Modern, chooser: random.Random) -> None:
    """Each CREATE is answered; what isn't a lease's length makes none; and others are served meanwhile."""
    bystander, one = (client_of(every, modern) for _ in range(2))
    kept = lease_in(bystander.ask(leasing("of a bystander", FIRST, RW, 3)))
    statuses = set()
    for number in range(400):
        answer = one.ask(create(f"hostile {number % 7}", level=chooser.choice([0, 1, 8, BATCH, LEASED]), contexts=drawn(chooser)))
        statuses.add(answer.status)
        if answer.status == Status.SUCCESS:
            assert all(len(data) in (32, 52) for name, data in granted(answer).items() if name == b"RqLs")
            assert one.status(close(answer.number(128, 8))) == Status.SUCCESS
    assert {Status.SUCCESS, Status.INVALID_PARAMETER} <= statuses
    assert bystander.status(ECHO) == Status.SUCCESS
    assert lease_in(bystander.ask(leasing("of a bystander", FIRST, RW, 3))) == kept


@pytest.mark.parametrize("contexts", [
    pytest.param([(b"RqLs", bytes(32)), (b"RqLs", bytes(52))], id="leases of both versions"),
    pytest.param([durable_request(GUID), (b"DHnQ", bytes(16))], id="durable opens of both versions"),
    pytest.param([durable_request(GUID), (b"DH2C", bytes(36))], id="DH2Q and DH2C"),
    pytest.param([durable_request(GUID), (b"DHnC", bytes(16))], id="DH2Q and DHnC"),
    pytest.param([(b"DHnC", bytes(16)), (b"DH2C", bytes(36))], id="DHnC and DH2C"),
    pytest.param([(b"DH2Q", bytes(31))], id="a short DH2Q"), pytest.param([(b"DH2Q", bytes(33))], id="a long DH2Q"),
    pytest.param([(b"DH2C", bytes(37))], id="a long DH2C"), pytest.param([(b"RqLs", bytes(51))], id="a short lease")])
def test_contexts_that_exclude_each_other(every: ServerProcess, modern: Modern, contexts: list[tuple[bytes, bytes]]) -> None:
    """They are refused (3.3.5.9.7, 3.3.5.9.10, 3.3.5.9.12), and nothing is opened or made."""
    one = client_of(every, modern)
    name = f"refused {len(contexts)} {contexts[0][0].decode()}"
    assert one.status(create(name, level=BATCH, contexts=chain(contexts))) == Status.INVALID_PARAMETER
    assert one.status(create(name, disposition=1)) == Status.OBJECT_NAME_NOT_FOUND


def test_a_write_breaks_all(every: ServerProcess, modern: Modern) -> None:
    """R to nothing asks for no acknowledgment, and has an epoch too."""
    one, other = (client_of(every, modern) for _ in range(2))
    assert lease_in(one.ask(leasing("written", FIRST, R, 0xFFFD))).epoch == 0xFFFE
    opened = other.open(create("written"))
    assert other.status(write(opened)) == Status.SUCCESS
    message: Message = one.receive()
    assert (notice(message), message.number(68, 4)) == ((FIRST, R, 0, 0xFFFF), 0)
    assert lease_in(one.ask(leasing("written", FIRST, R, 0xFFFD))).epoch == 0
