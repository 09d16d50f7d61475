"""Names, deletion, overwrites, locks and oplocks, which are the shell's."""
from __future__ import annotations

import pytest

from smblease import CreateAnswer, CreateAsk, LeaseState, Status
from smblease.drive.headers import Command, Message
from smblease.serve.create_parameters import CREATE, DELETE_ON_CLOSE, OPEN, OVERWRITE, OVERWRITE_IF
from smblease.serve.server_process import ServerProcess
from tests.serve.conftest import Connect
from tests.serve.requests import (KEY, acknowledge_oplock, acknowledgment, close, create, leased, lock, read, rename, set_info,
                                  write)

DELETING = 0x13019F
UNLOCK = 4
LEVEL_II, BATCH, LEASE = 1, 9, 0xFF


def end_of_file(message: Message) -> int:
    """As a create's answer has it."""
    return message.number(112, 8)


def test_an_overwrite_of_an_open_file(served: ServerProcess, connect: Connect) -> None:
    """It is a change as a write is: whoever caches the file gives up all of it, and then it ends at 0."""
    one, other = connect(served), connect(served)
    first = one.open(leased("file", KEY, "RWH"))
    one.ask(write(first))
    number = other.send(create("file", disposition=OVERWRITE))
    assert (other.receive().status, one.receive().number(92, 4)) == (Status.PENDING, 0), "a break to none"
    assert one.status(write(first, 8, b" more")) == Status.SUCCESS
    one.ask(acknowledgment(KEY, "none"))
    assert end_of_file(other.answer_to(number)) == 0
    assert one.status(read(first)) == Status.END_OF_FILE


def test_an_overwrite_while_a_lease_is_being_broken(served: ServerProcess, connect: Connect) -> None:
    """It goes before the create that the lease is being broken for. What is left is given up handles first."""
    one, other, third = connect(served), connect(served), connect(served)
    one.open(leased("file", KEY, "RWH"))
    opening = other.send(create("file"))
    assert (other.receive().status, one.receive().number(92, 4)) == (Status.PENDING, 3), "a break to RH"
    number = third.send(create("file", disposition=OVERWRITE))
    assert third.receive().status == Status.PENDING
    assert one.status(acknowledgment(KEY, "RH")) == Status.SUCCESS
    assert one.receive().number(92, 4) == 1, "a break to R"
    assert one.status(acknowledgment(KEY, "R")) == Status.SUCCESS
    assert one.receive().number(92, 4) == 0, "a break of what is left, which only reads"
    assert end_of_file(third.answer_to(number)) == 0
    assert other.answer_to(opening).status == Status.SUCCESS


@pytest.mark.parametrize("disposition", [OPEN, OVERWRITE])
def test_a_create_opens_what_has_its_name_once_it_has_waited(served: ServerProcess, connect: Connect, disposition: int) -> None:
    """Whoever caches the file may rename it first, and another may be made in its place."""
    one, other = connect(served), connect(served)
    contexts = CreateAsk(KEY, LeaseState.of("RWH")).write()
    first = one.open(create("file", access=DELETING, level=LEASE, contexts=contexts))
    one.ask(write(first, 0, b"longer"))
    number = other.send(create("file", disposition=disposition))
    assert other.receive().status == Status.PENDING
    broken = LeaseState(one.receive().number(92, 4))
    assert one.status(rename(first, "moved")) == Status.SUCCESS
    second = one.open(create("file"))
    one.ask(write(second, 0, b"it"))
    one.ask(acknowledgment(KEY, str(broken)))
    assert end_of_file(other.answer_to(number)) == (2 if disposition == OPEN else 0)
    assert one.ask(read(first)).part(80, 6) == b"longer"


def test_what_is_taken_back_of_a_create_that_stepped_back(served: ServerProcess, connect: Connect) -> None:
    one, other, third = connect(served), connect(served), connect(served)
    one.open(leased("file", KEY, "RWH"))
    opening, more = other.send(create("file")), other.send(create("file"))
    assert [other.receive().status for _ in range(2)] == 2 * [Status.PENDING]
    number = third.send(create("file", disposition=OVERWRITE))
    assert third.receive().status == Status.PENDING
    other.send_cancel(opening)
    assert other.answer_to(opening).status == Status.CANCELLED
    third.send_cancel(number)
    assert third.answer_to(number).status == Status.CANCELLED
    one.receive()
    assert one.status(acknowledgment(KEY, "RH")) == Status.SUCCESS
    assert other.answer_to(more).status == Status.SUCCESS


def test_an_overwrite_that_conflicts(served: ServerProcess, connect: Connect) -> None:
    """Its client is asked for handles alone, as by any other create that conflicts."""
    one, other = connect(served), connect(served)
    one.open(create("file", share=1, level=LEASE, contexts=CreateAsk(KEY, LeaseState.of("RWH")).write()))
    number = other.send(create("file", disposition=OVERWRITE))
    assert (other.receive().status, one.receive().number(92, 4)) == (Status.PENDING, 5), "a break to RW"
    one.ask(acknowledgment(KEY, "RW"))
    assert other.answer_to(number).status == Status.SHARING_VIOLATION


def test_an_overwrite_that_is_taken_back(served: ServerProcess, connect: Connect) -> None:
    one, other = connect(served), connect(served)
    first = one.open(leased("file", KEY, "RWH"))
    one.ask(write(first))
    number = other.send(create("file", disposition=OVERWRITE))
    assert other.receive().status == Status.PENDING
    other.send_cancel(number)
    assert other.answer_to(number).status == Status.CANCELLED
    one.receive()
    assert one.status(acknowledgment(KEY, "none")) == Status.SUCCESS
    assert end_of_file(other.ask(create("file", disposition=OPEN))) == 8


def test_an_overwrite_that_is_refused_leaves_the_file(served: ServerProcess, connect: Connect) -> None:
    """The key of the create has a lease on another file."""
    one = connect(served)
    first = one.open(create("file"))
    one.ask(write(first))
    one.ask(close(first))
    one.open(leased("other", KEY, "RWH"))
    assert one.status(leased("file", KEY, "RWH", disposition=OVERWRITE_IF)) == Status.INVALID_PARAMETER
    assert end_of_file(one.ask(create("file", disposition=OPEN))) == 8


def test_an_overwrite_begins_a_file_anew(served: ServerProcess, connect: Connect) -> None:
    one = connect(served)
    first = one.open(create("file"))
    one.ask(write(first))
    one.ask(close(first))
    anew = one.ask(create("file", disposition=OVERWRITE))
    assert (anew.status, end_of_file(anew)) == (Status.SUCCESS, 0)


@pytest.mark.parametrize("length, least, is_enough", [(0, 0, True), (0, 1, False), (8, 8, True), (100, 8, True), (100, 9, False)])
def test_a_read_of_at_least_so_many_bytes(served: ServerProcess, connect: Connect, length: int, least: int,
                                          is_enough: bool) -> None:
    """Of a file of eight bytes; a READ that wants some at least, and gets fewer, has come to its end (3.3.5.12)."""
    one = connect(served)
    opened = one.open(create("file"))
    one.ask(write(opened))
    assert one.status(read(opened, length, least)) == (Status.SUCCESS if is_enough else Status.END_OF_FILE)


def test_deletion(served: ServerProcess, connect: Connect) -> None:
    """A file goes with its last open; until then it is there for those that have it, and for nobody else."""
    one, other = connect(served), connect(served)
    first, second = one.open(create("file", access=DELETING)), other.open(create("file", access=DELETING))
    assert one.status(set_info(first, 13, b"\1")) == Status.SUCCESS
    assert other.status(create("file")) == Status.DELETE_PENDING
    assert one.status(close(first)) == Status.SUCCESS
    assert other.status(read(second)) == Status.END_OF_FILE
    assert other.status(create("file")) == Status.DELETE_PENDING
    assert other.status(close(second)) == Status.SUCCESS
    assert other.status(create("file", disposition=OPEN)) == Status.OBJECT_NAME_NOT_FOUND
    assert other.status(create("file", disposition=CREATE)) == Status.SUCCESS
    assert one.status(create("file", disposition=CREATE)) == Status.OBJECT_NAME_COLLISION


def test_who_deletes_waits_for_the_handles_of_others(served: ServerProcess, connect: Connect) -> None:
    one, other = connect(served), connect(served)
    one.open(leased("file", KEY, "RH"))
    number = other.send(create("file", access=DELETING, disposition=OPEN, options=DELETE_ON_CLOSE))
    waits, notice = other.receive(), one.receive()
    assert (waits.identifier, waits.status) == (number, Status.PENDING)
    assert (notice.number(88, 4), notice.number(92, 4)) == (3, 1), "of RH to R"
    one.ask(acknowledgment(KEY, "R"))
    assert other.answer_to(number).status == Status.SUCCESS


def test_locks(served: ServerProcess, connect: Connect) -> None:
    """A lock keeps others from its bytes, until it is given up."""
    one, other = connect(served), connect(served)
    first, second = one.open(create("file")), other.open(create("file"))
    assert one.status(lock(first)) == Status.SUCCESS
    assert other.status(lock(second)) == Status.LOCK_NOT_GRANTED
    assert other.status(write(second, 0, b"x")) == Status.FILE_LOCK_CONFLICT
    assert other.status(write(second, 3, b"x")) == Status.SUCCESS
    assert one.status(lock(first, UNLOCK)) == Status.SUCCESS
    assert other.status(write(second, 0, b"x")) == Status.SUCCESS


def test_oplocks(served: ServerProcess, connect: Connect) -> None:
    """A batch oplock breaks to level II beside a second open, whose create waits for that, and to none at a write."""
    one, other = connect(served), connect(served)
    made = one.ask(create("file", level=BATCH))
    assert made.number(66, 1) == BATCH
    number = other.send(create("file", level=LEVEL_II))
    waits, notice = other.receive(), one.receive()
    assert (waits.status, notice.command, notice.number(66, 1)) == (Status.PENDING, Command.OPLOCK_BREAK, LEVEL_II)
    answer = one.ask(acknowledge_oplock(made.number(128, 8)))
    assert (answer.status, answer.number(66, 1)) == (Status.SUCCESS, LEVEL_II)
    done = other.answer_to(number)
    assert (done.status, done.number(66, 1)) == (Status.SUCCESS, LEVEL_II)
    other.ask(write(done.number(128, 8)))
    assert one.receive().number(66, 1) == 0


def test_an_oplock_beside_handles(served: ServerProcess, connect: Connect) -> None:
    """There is none while a lease holds handles, and one of level II once it doesn't."""
    one, other = connect(served), connect(served)
    first = one.open(leased("file", KEY, "RH"))
    assert other.ask(create("file", level=BATCH)).number(66, 1) == 0
    one.ask(close(first))
    one.open(leased("file", KEY, "R"))
    assert other.ask(create("file", level=BATCH)).number(66, 1) == LEVEL_II


@pytest.mark.parametrize("asked, granted", [("RH", "R"), ("RWH", "R"), ("R", "R")])
def test_a_lease_beside_an_oplock(served: ServerProcess, connect: Connect, asked: str, granted: str) -> None:
    """It holds no handles."""
    from tests.serve.wire_client import contexts_of  # pylint: disable=import-outside-toplevel
    one, other = connect(served), connect(served)
    assert one.ask(create("file", level=LEVEL_II)).number(66, 1) == LEVEL_II
    answer = CreateAnswer.read(contexts_of(other.ask(leased("file", KEY, asked, durable=True))))
    assert (answer.state, answer.durable) == (LeaseState.of(granted), False)


@pytest.mark.parametrize("access, expected", [
    pytest.param(0x120089, Status.SUCCESS, id="reading"), pytest.param(0x120116, Status.SHARING_VIOLATION, id="writing"),
    pytest.param(0x10000, Status.SHARING_VIOLATION, id="deleting"), pytest.param(0x80, Status.SUCCESS, id="attributes"),
])
def test_sharing(shared: ServerProcess, connect: Connect, access: int, expected: Status) -> None:
    """Reading and writing is shared by the manager's rules, deletion by the shell's. The first open shares reading alone."""
    one, other = connect(shared), connect(shared)
    one.open(create("file", access=0x120089, share=1))
    assert other.status(create("file", access=access, share=7)) == expected


def test_locks_that_are_refused_together(served: ServerProcess, connect: Connect) -> None:
    """Where one of a request isn't to be had, none is taken (3.3.5.14.2)."""
    one, other = connect(served), connect(served)
    first, second = one.open(create("file")), other.open(create("file"))
    assert one.status(lock(first, offset=7)) == Status.SUCCESS
    assert other.status(lock(second, offset=5, more=[6, 7])) == Status.LOCK_NOT_GRANTED
    assert one.status(lock(first, offset=5)) == Status.SUCCESS
