"""Breaks of oplocks and leases that the shell adds to the manager's, and opens of attributes alone that cache."""
from __future__ import annotations

import struct
from collections.abc import Callable

import pytest

from smblease import CreateAnswer, CreateAsk, LeaseState, Status
from smblease.drive.headers import Command, Message
from smblease.serve.create_parameters import OPEN, OVERWRITE, OVERWRITE_IF, SUPERSEDE
from smblease.serve.server_process import ServerProcess
from tests import needs
from tests.serve.conftest import Connect
from tests.serve.requests import (KEY, OTHER_KEY, Body, acknowledge_oplock, acknowledgment, close, create, leased, lock, read,
                                  set_info, write)

pytest.importorskip("impacket", reason=f"there is no package impacket; {needs.INSTALLS}")
from tests.serve.wire_client import contexts_of, file_id  # noqa: E402  # pylint: disable=wrong-import-position

NONE, LEVEL_II, EXCLUSIVE, BATCH, LEASE = 0, 1, 8, 9, 0xFF
ATTRIBUTES, READ_CONTROL, READING, WRITING = 0x80, 0x20000, 0x120089, 0x120116
QUIET = 0.05


def level_of(message: Message) -> int:
    """That of an answer to a CREATE, or of a break of an oplock."""
    return message.number(66, 1)


def new_state(message: Message) -> int:
    """That of a break of a lease."""
    return message.number(92, 4)


def looking(name: str, key: bool = False, access: int = ATTRIBUTES, durable: bool = False) -> Body:
    contexts = CreateAsk(OTHER_KEY if key else None, LeaseState.of("RWH" if key else "none"), durable).write()
    return create(name, access=access, level=LEASE if key else BATCH, contexts=contexts)


@pytest.mark.parametrize("disposition", [OVERWRITE, OVERWRITE_IF, SUPERSEDE])
@pytest.mark.parametrize("level", [EXCLUSIVE, BATCH])
def test_an_overwrite_breaks_an_oplock_to_none(shared: ServerProcess, connect: Connect, level: int, disposition: int) -> None:
    """As smbtorture's exclusive5 and batch13 to batch16 have it; level II isn't left to be had."""
    one, other, name = connect(shared), connect(shared), f"overwritten-{level}-{disposition}"
    opened = file_id(one.ask(create(name, level=level)))
    number = other.send(create(name, disposition=disposition, level=level))
    notice = one.receive()
    assert (notice.command, level_of(notice)) == (Command.OPLOCK_BREAK, NONE)
    assert one.status(acknowledge_oplock(opened, LEVEL_II)) == Status.INVALID_OPLOCK_PROTOCOL
    assert one.status(acknowledge_oplock(opened, NONE)) == Status.SUCCESS
    done = other.answer_to(number)
    assert (done.status, level_of(done), one.has_more(QUIET)) == (Status.SUCCESS, LEVEL_II, False)


def test_an_overwrite_breaks_a_lease_to_none(served: ServerProcess, connect: Connect) -> None:
    """As smbtorture's lease.breaking2 has it: what is acknowledged is no more than what was left (3.3.5.22.2)."""
    one, other = connect(served), connect(served)
    one.open(leased("file", KEY, "RWH"))
    number = other.send(create("file", disposition=OVERWRITE))
    assert new_state(one.receive()) == 0
    assert one.status(acknowledgment(KEY, "R")) == Status.REQUEST_NOT_ACCEPTED
    assert one.status(acknowledgment(KEY, "none")) == Status.SUCCESS
    assert (other.answer_to(number).status, one.has_more(QUIET)) == (Status.SUCCESS, False)


def test_what_opens_for_writing_leaves_level_ii(served: ServerProcess, connect: Connect) -> None:
    """Without an overwrite a break is as far as the manager's."""
    one, other = connect(served), connect(served)
    opened = file_id(one.ask(create("file", level=BATCH)))
    number = other.send(create("file"))
    assert level_of(one.receive()) == LEVEL_II
    assert one.status(acknowledge_oplock(opened, LEVEL_II)) == Status.SUCCESS
    assert other.answer_to(number).status == Status.SUCCESS


@pytest.mark.parametrize("body", [
    pytest.param(write, id="a write"), pytest.param(lock, id="a lock"),
    pytest.param(lambda it: set_info(it, 20, struct.pack("<Q", 100)), id="another end"),
    pytest.param(lambda it: set_info(it, 19, struct.pack("<Q", 1 << 20)), id="an allocation"),
])
def test_who_changes_a_file_loses_level_ii(served: ServerProcess, connect: Connect, body: Callable[[int], Body]) -> None:
    """His own too, which nobody acknowledges (MS-FSA 2.1.4.12): smbtorture's batch1, batch12, brl1 and levelii500."""
    one, other = connect(served), connect(served)
    opened, second = (file_id(it.ask(create("file", level=LEVEL_II))) for it in (one, other))
    assert one.status(body(opened)) == Status.SUCCESS
    assert [(it.command, level_of(it), file_id_of(it)) for it in one.breaks] == [(Command.OPLOCK_BREAK, NONE, opened)]
    notice = other.receive()
    assert (notice.command, level_of(notice), file_id_of(notice)) == (Command.OPLOCK_BREAK, NONE, second)
    assert one.status(acknowledge_oplock(opened, NONE)) == Status.INVALID_OPLOCK_PROTOCOL
    assert one.status(body(opened) if body is not lock else write(opened, 7)) == Status.SUCCESS
    assert (len(one.breaks), one.has_more(QUIET), other.has_more(QUIET)) == (1, False, False)


def file_id_of(notice: Message) -> int:
    """Of the break of an oplock."""
    return notice.number(72, 8)


@pytest.mark.parametrize("letters, is_broken", [("", True), ("RWH", False)], ids=["a batch oplock", "a lease"])
def test_an_open_that_reads_who_may_do_what(served: ServerProcess, connect: Connect, letters: str, is_broken: bool) -> None:
    """It breaks an oplock, and no lease: smbtorture's oplock.statopen1 and lease.statopen4."""
    one, other = connect(served), connect(served)
    opened = file_id(one.ask(leased("file", KEY, letters) if letters else create("file", level=BATCH)))
    number = other.send(create("file", access=READ_CONTROL, disposition=OPEN))
    if is_broken:
        assert level_of(one.receive()) == LEVEL_II
        one.ask(acknowledge_oplock(opened, LEVEL_II))
    assert (other.answer_to(number).status, one.has_more(QUIET)) == (Status.SUCCESS, False)


@pytest.mark.parametrize("access", [0x80, 0x100, 0x180, 0x100080])
def test_an_open_of_attributes_is_granted_an_oplock(shared: ServerProcess, connect: Connect, access: int) -> None:
    """It breaks as any does, and keeps nobody out: smbtorture's batch9, whose second open shares nothing."""
    one, other, name = connect(shared), connect(shared), f"looked-at-{access:x}"
    made = one.ask(looking(name, access=access, durable=True))
    assert (made.status, level_of(made), contexts_of(made)[16:20]) == (Status.SUCCESS, BATCH, b"DHnQ")
    number = other.send(create(name, share=0, level=BATCH))
    assert level_of(one.receive()) == LEVEL_II
    one.ask(acknowledge_oplock(file_id(made), LEVEL_II))
    done = other.answer_to(number)
    assert (done.status, level_of(done)) == (Status.SUCCESS, LEVEL_II)
    assert one.status(read(file_id(made))) == Status.ACCESS_DENIED
    assert other.status(write(file_id(done))) == Status.SUCCESS
    assert level_of(one.receive()) == NONE


def test_an_open_of_attributes_is_granted_a_lease(served: ServerProcess, connect: Connect) -> None:
    """smbtorture's lease.statopen and durable-open.stat-open."""
    one, other = connect(served), connect(served)
    made = CreateAnswer.read(contexts_of(one.ask(looking("file", True, durable=True))))
    assert (made.state, made.durable) == (LeaseState.of("RWH"), True)
    number = other.send(create("file", share=0))
    assert new_state(one.receive()) == 3
    one.ask(acknowledgment(OTHER_KEY, "RH"))
    assert other.answer_to(number).status == Status.SUCCESS


@pytest.mark.parametrize("access, expected", [(READING, Status.SHARING_VIOLATION), (WRITING, Status.SUCCESS),
                                              (ATTRIBUTES, Status.SUCCESS)])
def test_what_is_not_shared_beside_an_open_of_attributes(served: ServerProcess, connect: Connect, access: int,
                                                         expected: Status) -> None:
    """Who shares no reading keeps others from reading, whoever looks at attributes meanwhile."""
    one, other, third = (connect(served) for _ in range(3))
    one.open(looking("file"))
    number = other.send(create("file", share=2))
    one.ask(acknowledge_oplock(file_id_of(one.receive()), NONE))
    second = file_id(other.answer_to(number))
    assert third.status(create("file", access=access, disposition=OPEN)) == expected
    other.ask(close(second))
    assert third.status(create("file", access=READING, disposition=OPEN)) == Status.SUCCESS


@pytest.mark.parametrize("shares, expected", [
    pytest.param((7, 2), [Status.SUCCESS, Status.SHARING_VIOLATION], id="one that reads came first"),
    pytest.param((2, 7), [Status.SUCCESS, Status.SHARING_VIOLATION], id="one that shares no reading came first"),
    pytest.param((7, 7), [Status.SUCCESS, Status.SUCCESS], id="both share all"),
])
def test_two_that_wait_for_an_open_of_attributes(served: ServerProcess, connect: Connect, shares: tuple[int, int],
                                                 expected: list[Status]) -> None:
    """Both wait for its oplock, and one of them is refused where they don't share."""
    one, *others = (connect(served) for _ in range(3))
    opened = one.open(looking("file"))
    numbers = [it.send(create("file", access=READING, share=share)) for it, share in zip(others, shares)]
    assert [it.receive().status for it in others] == [Status.PENDING] * 2
    assert one.status(acknowledge_oplock(opened, NONE)) == Status.SUCCESS
    assert [it.answer_to(number).status for it, number in zip(others, numbers)] == expected


@pytest.mark.parametrize("key", [False, True], ids=["an oplock", "a lease"])
@pytest.mark.parametrize("share, letters", [(7, "RWH"), (2, "RH"), (0, "RWH")])
def test_an_open_of_attributes_that_comes_later(served: ServerProcess, connect: Connect, share: int, letters: str,
                                                key: bool) -> None:
    """Where the manager would break something for it, or refuse it, it is granted nothing, and nobody notices."""
    one, other = connect(served), connect(served)
    contexts = CreateAsk(KEY, LeaseState.of(letters)).write()
    one.open(create("file", share=share, level=LEASE, contexts=contexts))
    made = other.ask(looking("file", key))
    assert (made.status, level_of(made), one.has_more(QUIET)) == (Status.SUCCESS, NONE, False)


def test_an_open_of_attributes_beside_leases_that_read(served: ServerProcess, connect: Connect) -> None:
    one, other = connect(served), connect(served)
    one.open(leased("file", KEY, "RH"))
    made = CreateAnswer.read(contexts_of(other.ask(looking("file", True))))
    assert (made.state, one.has_more(QUIET)) == (LeaseState.of("RH"), False)
