"""Connections of one ClientGuid, which are one client."""
from __future__ import annotations

from pathlib import Path
from typing import TYPE_CHECKING

import pytest

from smblease import CreateAnswer, CreateAsk, LeaseState, Status
from smblease.drive.headers import Command
from smblease.serve.server_process import ServerProcess
from tests.serve.conftest import Connect, Start
from tests.serve.requests import ECHO, KEY, OTHER_KEY, acknowledgment, close, create, leased, read, write

if TYPE_CHECKING:
    from tests.serve.wire_client import WireClient

GUID = b"2" * 16


def granted(client: "WireClient", name: str, letters: str) -> LeaseState:
    from tests.serve.wire_client import contexts_of  # pylint: disable=import-outside-toplevel
    return CreateAnswer.read(contexts_of(client.ask(leased(name, KEY, letters)))).state


def lose(lost: "WireClient", other: "WireClient") -> None:
    """Closes a connection; by the second answer to another one the server has seen that."""
    lost.close()
    assert [other.status(ECHO) for _ in range(2)] == [Status.SUCCESS] * 2


def test_they_share_leases(served: ServerProcess, connect: Connect) -> None:
    """A key is the same over both, so that nothing is broken."""
    one, sister = connect(served, GUID), connect(served, GUID)
    assert granted(one, "file", "RWH") == granted(sister, "file", "RWH") == LeaseState.of("RWH")
    assert one.has_more(0.1) is sister.has_more(0.1) is False


def test_a_break_goes_where_the_lease_is_used(served: ServerProcess, connect: Connect) -> None:
    """It goes over the connection of an open under the key, and may be acknowledged over any."""
    one, sister, other = connect(served, GUID), connect(served, GUID), connect(served)
    one.open(leased("another", OTHER_KEY, "R"))
    held = sister.open(leased("file", KEY, "RWH"))
    number = other.send(create("file"))
    assert (other.receive().status, sister.receive().command) == (Status.PENDING, Command.OPLOCK_BREAK)
    assert one.has_more(0.1) is False
    assert one.status(acknowledgment(KEY, "RH")) == Status.SUCCESS
    assert other.answer_to(number).status == Status.SUCCESS
    assert sister.status(read(held)) == Status.END_OF_FILE


@pytest.mark.parametrize("is_leased", [True, False])
def test_an_open_is_its_connections(served: ServerProcess, connect: Connect, is_leased: bool) -> None:
    one, sister = connect(served, GUID), connect(served, GUID)
    opened = one.open(leased("file", KEY, "RWH") if is_leased else create("file"))
    assert [sister.status(it) for it in (read(opened), write(opened), close(opened))] == [Status.FILE_CLOSED] * 3
    assert one.status(write(opened)) == Status.SUCCESS


def test_a_connection_that_is_lost(served: ServerProcess, connect: Connect) -> None:
    """Its opens end, and those of the other one stay."""
    one, sister, other = connect(served, GUID), connect(served, GUID), connect(served)
    one.open(leased("lost", KEY, "RWH"))
    kept = sister.open(leased("kept", OTHER_KEY, "RWH"))
    lose(one, other)
    assert granted(other, "lost", "RWH") == LeaseState.of("RWH"), "nobody has it open"
    assert sister.status(write(kept)) == Status.SUCCESS


def logged_off(leaving: "WireClient") -> None:
    assert leaving.status((Command.LOGOFF, b"\4\0\0\0")) == Status.SUCCESS


@pytest.mark.parametrize("is_session", [True, False], ids=["session", "connection"])
def test_durable_opens_of_a_part(served: ServerProcess, connect: Connect, is_session: bool) -> None:
    """They wait for the client, which is there still, and are connected again by its other session or connection."""
    one, other = connect(served, GUID), connect(served)
    lost = one.open(leased("lost", KEY, "RWH", durable=True))
    ended = one.open(leased("ended", OTHER_KEY, "RWH"))
    if is_session:
        second = one.set_up_another_session()
        logged_off(one)
        one.session, sister = second, one
        one.connect_tree()
    else:
        sister = connect(served, GUID)
        lose(one, other)
    assert sister.status(write(lost)) == Status.FILE_CLOSED
    again = create("lost", level=0xFF, contexts=CreateAsk(KEY, LeaseState.NONE, reconnect=lost).write())
    assert sister.status(again) == Status.SUCCESS
    assert [sister.status(it) for it in (write(lost), write(ended))] == [Status.SUCCESS, Status.FILE_CLOSED]


def test_others_end_what_a_part_left(served: ServerProcess, connect: Connect) -> None:
    """Who needs what its lease holds has it at once."""
    one, sister, other = connect(served, GUID), connect(served, GUID), connect(served)
    lost = one.open(leased("file", KEY, "RWH", durable=True))
    lose(one, sister)
    assert granted(other, "file", "RWH") == LeaseState.of("RWH")
    again = create("file", level=0xFF, contexts=CreateAsk(KEY, LeaseState.NONE, reconnect=lost).write())
    assert sister.status(again) == Status.OBJECT_NAME_NOT_FOUND


def test_a_create_that_is_held_for_a_lost_connection(served: ServerProcess, connect: Connect) -> None:
    """It is closed once it is answered."""
    one, sister, other = connect(served, GUID), connect(served, GUID), connect(served)
    other.open(leased("file", OTHER_KEY, "RWH"))
    one.send(leased("file", KEY, "RH"))
    assert one.receive().status == Status.PENDING
    lose(one, sister)
    assert other.receive().command == Command.OPLOCK_BREAK
    other.ask(acknowledgment(OTHER_KEY, "RH"))
    other.ask(leased("file", OTHER_KEY, "RWH"))
    sister.send(create("file"))
    assert sister.receive().status == Status.PENDING, "the other one was alone, so it could cache writes again"


def test_the_last_connection_is_the_clients_cut(served: ServerProcess, connect: Connect) -> None:
    """Its durable opens are kept, and a new connection has them again."""
    one, sister = connect(served, GUID), connect(served, GUID)
    durable = sister.open(leased("file", KEY, "RWH", durable=True))
    lose(one, sister)
    sister.close()
    again = create("file", level=0xFF, contexts=CreateAsk(KEY, LeaseState.NONE, reconnect=durable).write())
    assert connect(served, GUID).status(again) == Status.SUCCESS


def test_the_record_promises_it_nothing(start: Start, connect: Connect, tmp_path: Path) -> None:
    server = start(record=tmp_path / "record")
    one, other = connect(server, GUID), connect(server)
    one.open(leased("file", KEY, "RWH"))
    sister = connect(server, GUID)
    number = other.send(create("file"))
    other.receive()
    sister.ask(acknowledgment(KEY, "RH"))
    other.answer_to(number)
    for client in (one, sister, other):
        client.close()
    server.close()
    lines = (tmp_path / "record").read_text(encoding="utf-8").splitlines()
    place = lines.index("strayed 1")
    assert (lines[place - 1], lines.count("strayed 1")) == ("# client 1 has several connections", 1)
    assert not any(it.startswith("took 1") for it in lines[place:]) and server.verdict == "safe"
