"""Durable opens of version 2 on the wire: DH2Q, DH2C, replays, and applications that move (3.3.5.9.10, 3.3.5.9.12, and
3.3.5.9.13)."""
from __future__ import annotations

import struct
import time
import uuid

import pytest

from smblease import Status
from smblease.drive.headers import Command, Message
from smblease.serve.server_process import ServerProcess
from tests.python.version_bytes import Lease, chain, durable_request
from tests.serve.conftest import Start
from tests.serve.modern import EVERY, NEEDED, PASSWORD, USER, Modern
from tests.serve.modern_client import ModernClient
from tests.serve.negotiating import Asking, Guard
from tests.serve.requests import Body, acknowledge_oplock, close, create, frame, read, write
from tests.serve.second_versions import (BATCH, DUPLICATE_OBJECTID, FILE_NOT_AVAILABLE, FIRST, GUID, LEASED, OTHER_GUID, RH, RW,
                                         RWH, SECOND, R, acknowledgment, again, granted, lasting, lease_in, leasing, replaying)

pytestmark = NEEDED
SERVERS_OWN = 300_000
CREATED, OPENED = 2, 1
APP_INSTANCE = bytes.fromhex("45bca66aefa7f74a9008fa462e144d74")


def client_of(server: ServerProcess, modern: Modern, guid: bytes | None = None) -> ModernClient:
    return modern(server, Asking(guid=guid or uuid.uuid4().bytes)).begin(USER, PASSWORD)


def lost(server: ServerProcess, modern: Modern, one: ModernClient) -> ModernClient:
    """The same client on a new connection, once the first one is lost."""
    one.close()
    return client_of(server, modern, one.guid)


def file_id(answer: Message) -> int:
    return answer.number(128, 8)


@pytest.mark.parametrize("asked, answered", [(0, SERVERS_OWN), (1000, 1000), (0xFFFFFFFF, SERVERS_OWN)])
@pytest.mark.parametrize("level", [BATCH, LEASED])
def test_a_grant(every: ServerProcess, modern: Modern, level: int, asked: int, answered: int) -> None:
    """It says for how many milliseconds the open is kept, and that it doesn't outlive the server."""
    name, one = f"granted {level} {asked}", client_of(every, modern)
    contexts = [durable_request(GUID, asked), *([(b"RqLs", Lease(FIRST, RWH, 0, 1).write())] if level == LEASED else [])]
    answer = one.ask(create(name, level=level, contexts=chain(contexts)))
    assert granted(answer)[b"DH2Q"] == struct.pack("<LL", answered, 0)
    assert set(granted(answer)) == {b"DH2Q"} | ({b"RqLs"} if level == LEASED else set())


@pytest.mark.parametrize("body", [
    pytest.param(lasting("none", GUID, level=8), id="exclusive"), pytest.param(lasting("none", GUID, level=0), id="no oplock"),
    pytest.param(leasing("none", FIRST, RW, 1, durable=GUID), id="no handles")])
def test_no_grant(every: ServerProcess, modern: Modern, body: Body) -> None:
    """Without handles an open doesn't last, and its CreateGuid is free."""
    one = client_of(every, modern)
    opened = one.ask(body)
    assert b"DH2Q" not in granted(opened)
    assert one.status(close(file_id(opened))) == Status.SUCCESS
    assert b"DH2Q" in granted(one.ask(lasting("none", GUID)))


@pytest.mark.parametrize("is_leased", [True, False], ids=["lease", "oplock"])
def test_a_lost_connection(every: ServerProcess, modern: Modern, is_leased: bool) -> None:
    """The open is connected again by its CreateGuid alone; what it was granted stays."""
    name, lease = f"lost {is_leased}", Lease(FIRST, RWH, 0, 7)
    one = client_of(every, modern)
    opened = file_id(one.ask(leasing(name, FIRST, RWH, 6, durable=GUID) if is_leased else lasting(name, GUID)))
    assert one.status(write(opened, 0, b"before")) == Status.SUCCESS
    two = lost(every, modern, one)
    for guid in (OTHER_GUID, bytes(16)):
        assert two.status(again(name, opened, guid, lease if is_leased else None)) == Status.OBJECT_NAME_NOT_FOUND
    answer = two.ask(again(name, opened, GUID, lease if is_leased else None))
    assert (file_id(answer), answer.number(66, 1)) == (opened, LEASED if is_leased else BATCH)
    assert granted(answer) == ({b"RqLs": lease.write()} if is_leased else {})
    assert two.ask(read(opened)).data.endswith(b"before")
    assert two.status(again(name, opened, GUID, lease if is_leased else None)) == Status.OBJECT_NAME_NOT_FOUND


def test_whose_open_it_is(start: Start, modern: Modern) -> None:
    """No guest gets a user's, and no ClientGuid another's lease."""
    server = start(*EVERY, "--guests")
    one = client_of(server, modern)
    opened = file_id(one.ask(leasing("whose", FIRST, RWH, 6, durable=GUID)))
    guid = one.guid
    one.close()
    body = again("whose", opened, GUID, Lease(FIRST, RWH, 0, 7))
    assert client_of(server, modern).status(body) == Status.OBJECT_NAME_NOT_FOUND
    guest = modern(server, Asking(guid=guid)).begin("guest", guard=Guard.NONE)
    assert guest.status(body) == Status.ACCESS_DENIED
    guest.close()
    assert client_of(server, modern, guid).status(body) == Status.SUCCESS


@pytest.mark.parametrize("timeout, is_kept", [(300, False), (60_000, True)])
def test_the_time_that_it_is_kept(every: ServerProcess, modern: Modern, timeout: int, is_kept: bool) -> None:
    one = client_of(every, modern)
    opened = file_id(one.ask(lasting(f"kept {timeout}", GUID, timeout=timeout)))
    one.close()
    time.sleep(1.5)
    found = client_of(every, modern, one.guid).status(again(f"kept {timeout}", opened, GUID))
    assert found == (Status.SUCCESS if is_kept else Status.OBJECT_NAME_NOT_FOUND)


def test_the_time_that_the_server_has(start: Start, modern: Modern) -> None:
    one = client_of(start(*EVERY, "--durable-timer", "2.5"), modern)
    answers = [one.ask(lasting(f"short {it}", bytes([it]) * 16, timeout=it)) for it in (0, 100)]
    assert [granted(it)[b"DH2Q"] for it in answers] == [struct.pack("<LL", it, 0) for it in (2500, 100)]


@pytest.mark.parametrize("body, other", [
    (lasting("duplicate", GUID), lasting("another", GUID)),
    (leasing("duplicate", FIRST, RWH, 1, durable=GUID), leasing("another", SECOND, RWH, 1, durable=GUID)),
    (lasting("duplicate", GUID), leasing("another", SECOND, RWH, 1, durable=GUID)),
    (leasing("duplicate", FIRST, RWH, 1, durable=GUID), lasting("another", GUID))],
    ids=["oplocks", "leases", "an oplock, then a lease", "a lease, then an oplock"])
def test_a_create_guid_that_is_used(every: ServerProcess, modern: Modern, body: Body, other: Body) -> None:
    """By the same ClientGuid; nothing is made. Once the open is closed it may be used again, and by another client any time."""
    one = client_of(every, modern)
    opened = file_id(one.ask(body))
    assert one.status(other) == DUPLICATE_OBJECTID
    assert one.status(create("another", disposition=OPENED)) == Status.OBJECT_NAME_NOT_FOUND
    two = client_of(every, modern)
    made = two.ask(other)
    assert b"DH2Q" in granted(made)
    assert two.status(close(file_id(made))) == one.status(close(opened)) == Status.SUCCESS
    made = one.ask(create("another", access=0x13019F, options=0x1000, level=BATCH, contexts=chain([durable_request(GUID)])))
    assert b"DH2Q" in granted(made) and one.status(close(file_id(made))) == Status.SUCCESS


@pytest.mark.parametrize("body", [lasting("replayed", GUID), leasing("replayed lease", FIRST, RWH, 5, durable=GUID)],
                         ids=["oplock", "lease"])
def test_a_replay(every: ServerProcess, modern: Modern, body: Body) -> None:
    """The same open is answered again, as what it was; there is one open."""
    one = client_of(every, modern)
    first = one.ask(body)
    with replaying(one):
        second = one.ask(body)
    assert file_id(second) == file_id(first) and granted(second) == granted(first)
    assert [it.number(66, 1) for it in (first, second)] == [body[1][3]] * 2
    assert [it.number(68, 4) for it in (first, second)] == [CREATED] * 2
    assert one.status(close(file_id(first))) == Status.SUCCESS
    assert one.status(close(file_id(first))) == Status.FILE_CLOSED


def test_a_replay_after_a_break(every: ServerProcess, modern: Modern) -> None:
    """The lease is answered as it is, while its break is in progress too."""
    one, other = (client_of(every, modern) for _ in range(2))
    body = leasing("replayed late", FIRST, RWH, 5, durable=GUID)
    assert lease_in(one.ask(body)) == Lease(FIRST, RWH, 0, 6)
    number = other.send(create("replayed late"))
    one.receive()
    with replaying(one):
        assert lease_in(one.ask(body)) == Lease(FIRST, RWH, 2, 7)
    assert one.status(acknowledgment(FIRST, RH)) == other.answer_to(number).status == Status.SUCCESS
    with replaying(one):
        assert lease_in(one.ask(body)) == Lease(FIRST, RH, 0, 7)


@pytest.mark.parametrize("body", [lasting("replayed again", GUID), leasing("replayed again", FIRST, RWH, 5, durable=GUID)],
                         ids=["oplock", "lease"])
def test_a_replay_on_a_new_connection(every: ServerProcess, modern: Modern, body: Body) -> None:
    """The open is connected again by it."""
    one = client_of(every, modern)
    first = one.ask(body)
    assert one.status(write(file_id(first), 0, b"before")) == Status.SUCCESS
    two = lost(every, modern, one)
    assert two.status(body) == DUPLICATE_OBJECTID
    with replaying(two):
        second = two.ask(body)
    assert (file_id(second), granted(second)) == (file_id(first), granted(first))
    assert two.ask(read(file_id(second))).data.endswith(b"before")
    assert two.status(close(file_id(second))) == Status.SUCCESS


@pytest.mark.parametrize("body", [lasting("waits", GUID), leasing("waits", SECOND, RWH, 5, durable=GUID)],
                         ids=["oplock", "lease"])
def test_a_replay_of_a_create_that_waits(every: ServerProcess, modern: Modern, body: Body) -> None:
    holder, one = (client_of(every, modern) for _ in range(2))
    kept = file_id(holder.ask(leasing("waits", FIRST, RWH, 1)))
    number = one.send(body)
    holder.receive()
    with replaying(one):
        assert one.status(body) == FILE_NOT_AVAILABLE
    assert holder.status(acknowledgment(FIRST, RH)) == Status.SUCCESS
    assert one.answer_to(number).status == holder.status(close(kept)) == Status.SUCCESS


@pytest.mark.parametrize("is_leased", [False, True], ids=["oplock", "lease"])
@pytest.mark.parametrize("is_cut", [True, False], ids=["lost", "cancelled"])
def test_a_create_that_was_taken_back(every: ServerProcess, modern: Modern, is_leased: bool, is_cut: bool) -> None:
    """Its CreateGuid is free, and a replay of it a create as any."""
    name = f"taken back {is_leased} {is_cut}"
    body = leasing(name, SECOND, RWH, 5, durable=GUID) if is_leased else lasting(name, GUID)
    holder, one = (client_of(every, modern) for _ in range(2))
    kept = file_id(holder.ask(leasing(name, FIRST, RWH, 1)))
    number = one.send(body)
    holder.receive()
    if is_cut:
        one = lost(every, modern, one)
    else:
        one.stream.sendall(frame(one.message((Command.CANCEL, struct.pack("<HH", 4, 0)), number=number)))
        assert one.answer_to(number).status == Status.CANCELLED
    with replaying(one):
        number = one.send(body)
    assert holder.status(acknowledgment(FIRST, RH)) == Status.SUCCESS
    assert one.answer_to(number).status == holder.status(close(kept)) == Status.SUCCESS


@pytest.mark.parametrize("body, status", [
    (leasing("not the same", SECOND, RWH, 5, durable=GUID), Status.ACCESS_DENIED),
    (lasting("not the same", GUID), Status.ACCESS_DENIED)], ids=["another key", "an oplock"])
def test_a_replay_of_something_else(every: ServerProcess, modern: Modern, body: Body, status: int) -> None:
    one = client_of(every, modern)
    opened = file_id(one.ask(leasing("not the same", FIRST, RWH, 5, durable=GUID)))
    with replaying(one):
        assert one.status(body) == status
    assert one.status(close(opened)) == Status.SUCCESS


def test_a_replay_of_what_was_never_made(every: ServerProcess, modern: Modern) -> None:
    """It makes an open as any create."""
    one = client_of(every, modern)
    with replaying(one):
        answer = one.ask(lasting("never made", GUID))
    assert granted(answer)[b"DH2Q"] == struct.pack("<LL", SERVERS_OWN, 0)


def moving(name: str, application: bytes, guid: bytes) -> Body:
    instance = APP_INSTANCE, struct.pack("<HH16s", 20, 0, application)
    return create(name, level=BATCH, contexts=chain([durable_request(guid), instance]))


def test_an_application_that_moves(every: ServerProcess, modern: Modern) -> None:
    """What it had open by another client is closed without a break; another application's oplock is broken."""
    one, two, other = (client_of(every, modern) for _ in range(3))
    opened = file_id(one.ask(moving("moves", b"a" * 16, GUID)))
    moved = two.ask(moving("moves", b"a" * 16, OTHER_GUID))
    assert (moved.number(66, 1), set(granted(moved))) == (BATCH, {b"DH2Q"})
    assert (one.status(close(opened)), one.breaks) == (Status.FILE_CLOSED, [])
    number = other.send(moving("moves", b"b" * 16, GUID))
    assert two.receive().command is Command.OPLOCK_BREAK
    assert two.status(acknowledge_oplock(file_id(moved))) == other.answer_to(number).status == Status.SUCCESS


def test_other_clients_of_a_create_guid(every: ServerProcess, modern: Modern) -> None:
    """A CreateGuid is one of a client: there are as many opens as clients, and each is connected again."""
    clients = [client_of(every, modern) for _ in range(3)]
    opened = [file_id(it.ask(leasing(f"of {place}", FIRST, R | RH, 1, durable=GUID))) for place, it in enumerate(clients)]
    assert len(set(opened)) == 3
    for place, (one, found) in enumerate(zip(clients, opened)):
        two = lost(every, modern, one)
        assert two.status(again(f"of {place}", found, GUID, Lease(FIRST, RH, 0, 2))) == Status.SUCCESS
