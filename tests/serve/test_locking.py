"""LOCK requests that wait (MS-SMB2 3.3.5.14.2), and what locks keep whom from (MS-FSA 2.1.4.10)."""
from __future__ import annotations

import itertools
from pathlib import Path
from typing import TYPE_CHECKING

import pytest

from smblease import CreateAsk, Rules, Status
from smblease.drive.headers import ASYNC, Command
from smblease.serve import locking
from smblease.serve.server_process import ServerProcess
from tests.serve.conftest import Connect
from tests.serve.in_process import FrameClient, Sent, server_in
from tests.serve.requests import KEY, Body, close, create, leased, lock, read, write
from tests.serve.test_late_answers import LOGOFF, TREE_DISCONNECT

if TYPE_CHECKING:
    from tests.serve.wire_client import WireClient

SHARED, EXCLUSIVE, UNLOCK, AT_ONCE = 1, 2, 4, 16
NUMBERS = itertools.count(1)


@pytest.fixture(name="name")
def file_of_its_own() -> str:
    return f"file-{next(NUMBERS)}"


def waiting(client: "WireClient", file_id: int, flags: int = EXCLUSIVE) -> int:
    """The number of a LOCK that waits, which has been answered by an AsyncId."""
    number = client.send(lock(file_id, flags))
    message = client.receive()
    assert (message.identifier, message.status, bool(message.flags & ASYNC)) == (number, Status.PENDING, True)
    assert message.number(32, 8)
    return number


def is_locked(client: "WireClient", name: str) -> bool:
    """Whether another open finds the bytes locked."""
    opened = client.open(create(name))
    status = client.status(write(opened, 0, b"x"))
    client.ask(close(opened))
    return status == Status.FILE_LOCK_CONFLICT


@pytest.mark.parametrize("flags", [SHARED, EXCLUSIVE])
@pytest.mark.parametrize("ending", ["unlock", "close", "cut", "tree_disconnect"])
def test_a_lock_that_waits(shared: ServerProcess, connect: Connect, name: str, ending: str, flags: int) -> None:
    """It is granted once the range is free, however that comes."""
    one, other, third = connect(shared), connect(shared), connect(shared)
    first, second = one.open(create(name)), other.open(create(name))
    assert one.status(lock(first)) == Status.SUCCESS
    number = waiting(other, second, flags)
    if ending == "cut":
        one.close()
    else:
        bodies: dict[str, Body] = {"unlock": lock(first, UNLOCK), "close": close(first), "tree_disconnect": TREE_DISCONNECT}
        assert one.status(bodies[ending]) == Status.SUCCESS
    assert other.answer_to(number).status == Status.SUCCESS
    assert is_locked(third, name)


def test_locks_that_wait_go_in_order(shared: ServerProcess, connect: Connect, name: str) -> None:
    one, other, third = connect(shared), connect(shared), connect(shared)
    first, second, last = (it.open(create(name)) for it in (one, other, third))
    assert one.status(lock(first)) == Status.SUCCESS
    numbers = waiting(other, second), waiting(third, last)
    assert one.status(lock(first, UNLOCK)) == Status.SUCCESS
    assert other.answer_to(numbers[0]).status == Status.SUCCESS
    assert one.status(lock(first)) == Status.LOCK_NOT_GRANTED
    assert other.status(lock(second, UNLOCK)) == Status.SUCCESS
    assert third.answer_to(numbers[1]).status == Status.SUCCESS


def test_a_lock_that_waits_is_taken_back(shared: ServerProcess, connect: Connect, name: str) -> None:
    """Nothing of it is left (3.3.5.16)."""
    one, other = connect(shared), connect(shared)
    first, second = one.open(create(name)), other.open(create(name))
    assert one.status(lock(first)) == Status.SUCCESS
    number = waiting(other, second)
    other.send_cancel(number)
    assert other.answer_to(number).status == Status.CANCELLED
    assert one.status(lock(first, UNLOCK)) == Status.SUCCESS
    assert not is_locked(one, name)


@pytest.mark.parametrize("ending, expected", [
    pytest.param("close", Status.RANGE_NOT_LOCKED, id="close"),
    pytest.param("tree_disconnect", Status.RANGE_NOT_LOCKED, id="tree_disconnect"),
    pytest.param("logoff", Status.RANGE_NOT_LOCKED, id="logoff"), pytest.param("cut", None, id="cut"),
])
def test_a_lock_that_waits_ends_with_its_open(shared: ServerProcess, connect: Connect, name: str, ending: str,
                                              expected: Status | None) -> None:
    """As smbd answers it; nobody finds the range locked by it."""
    one, other = connect(shared), connect(shared)
    first, second = one.open(create(name)), other.open(create(name))
    if ending == "logoff":
        other.set_up_another_session()
    assert one.status(lock(first)) == Status.SUCCESS
    number = waiting(other, second)
    if ending == "cut":
        other.close()
    else:
        other.send({"close": close(second), "tree_disconnect": TREE_DISCONNECT, "logoff": LOGOFF}[ending])
        statuses = {it.identifier: it.status for it in (other.receive(), other.receive())}
        assert statuses == {number: expected, number + 1: Status.SUCCESS}
    assert one.status(lock(first, UNLOCK)) == Status.SUCCESS
    assert not is_locked(one, name)


def test_a_lock_that_waits_ends_with_the_connection_of_a_durable_open(shared: ServerProcess, connect: Connect, name: str) -> None:
    """The open is there to be connected again, and has no lock."""
    guid, one = b"8" * 16, connect(shared)
    first = one.open(create(name))
    assert one.status(lock(first)) == Status.SUCCESS
    other = connect(shared, guid)
    second = other.open(leased(name, KEY, "RH", durable=True))
    waiting(other, second)
    other.close()
    assert one.status(lock(first, UNLOCK)) == Status.SUCCESS
    again = create(name, level=0xFF, contexts=CreateAsk(KEY, reconnect=second).write())
    assert connect(shared, guid).status(again) == Status.SUCCESS
    assert one.status(lock(first)) == Status.SUCCESS


def test_no_bytes_of_a_locked_range(shared: ServerProcess, connect: Connect, name: str) -> None:
    """They are read and written; one byte isn't (MS-FSA 2.1.5.3, 2.1.5.4)."""
    one, other = connect(shared), connect(shared)
    first, second = one.open(create(name)), other.open(create(name))
    one.ask(write(first, 0, bytes(100)))
    assert one.status(lock(first, length=100)) == Status.SUCCESS
    inside = read(second, 0)[1]
    bodies = [(Command.READ, inside[:8] + (50).to_bytes(8, "little") + inside[16:]), write(second, 50, b"")]
    assert [other.status(it) for it in bodies] == [Status.SUCCESS] * 2
    assert [other.status(it) for it in (read(second, 1), write(second, 50, b"x"))] == [Status.FILE_LOCK_CONFLICT] * 2


def test_its_own_locks(shared: ServerProcess, connect: Connect, name: str) -> None:
    """An open may read within its own lock, write within an exclusive one alone, and lock such bytes as shared ones too."""
    one = connect(shared)
    opened = one.open(create(name))
    one.ask(write(opened, 0, bytes(10)))
    assert one.status(lock(opened, SHARED | AT_ONCE)) == Status.SUCCESS
    assert [one.status(it) for it in (read(opened, 1), write(opened, 0, b"x"))] == [Status.SUCCESS, Status.FILE_LOCK_CONFLICT]
    assert one.status(lock(opened, UNLOCK)) == Status.SUCCESS
    assert one.status(lock(opened, EXCLUSIVE | AT_ONCE)) == Status.SUCCESS
    assert one.status(write(opened, 0, b"x")) == Status.SUCCESS
    assert [one.status(lock(opened, it | AT_ONCE)) for it in (EXCLUSIVE, SHARED)] == [Status.LOCK_NOT_GRANTED, Status.SUCCESS]


def test_how_many_wait(tmp_path: Path, monkeypatch: pytest.MonkeyPatch) -> None:
    """Past that they are refused, as long as others wait."""
    monkeypatch.setattr(locking, "MOST_LOCKS", 2)
    share, streams = tmp_path / "share", tmp_path / "streams"
    share.mkdir()
    streams.mkdir()
    sent: Sent = []
    with server_in(share, streams, Rules()) as server:
        one = FrameClient(server, b"g" * 16, sent)

        def statuses(body: Body) -> list[int]:
            del sent[:]
            one.give(body)
            return [it.status for _, it in sent]
        statuses(create("file"))
        first = sent[0][1].number(128, 8)
        assert statuses(lock(first)) == [Status.SUCCESS]
        statuses(create("file"))
        second = sent[0][1].number(128, 8)
        assert [statuses(lock(second, EXCLUSIVE)) for _ in range(3)] == [
            [Status.PENDING], [Status.PENDING], [Status.INSUFFICIENT_RESOURCES]]
        assert statuses(lock(first, UNLOCK)) == [Status.SUCCESS] * 2
        one.cut()


@pytest.mark.parametrize("flags", [0, SHARED | EXCLUSIVE, UNLOCK | AT_ONCE, AT_ONCE, 32])
def test_flags_that_mean_nothing(shared: ServerProcess, connect: Connect, name: str, flags: int) -> None:
    one = connect(shared)
    assert one.status(lock(one.open(create(name)), flags)) == Status.INVALID_PARAMETER


def test_several_that_would_wait(shared: ServerProcess, connect: Connect, name: str) -> None:
    """One alone is waited for (3.3.5.14.2)."""
    one = connect(shared)
    assert one.status(lock(one.open(create(name)), EXCLUSIVE, more=[10])) == Status.INVALID_PARAMETER
