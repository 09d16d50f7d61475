"""What is answered too late, since its tree, its session or its connection is gone, is closed again."""
from __future__ import annotations

import struct
from typing import TYPE_CHECKING

import pytest

from smblease import CreateAnswer, CreateAsk, LeaseState, Status
from smblease.drive.headers import Command
from smblease.serve.server_process import ServerProcess
from tests.serve.conftest import Connect
from tests.serve.requests import KEY, OTHER_KEY, Body, acknowledgment, close, create, leased

if TYPE_CHECKING:
    from tests.serve.wire_client import WireClient

EMPTY = struct.pack("<HH", 4, 0)
TREE_DISCONNECT: Body = (Command.TREE_DISCONNECT, EMPTY)
LOGOFF: Body = (Command.LOGOFF, EMPTY)
BATCH = 9
HELD = [pytest.param(create("file"), id="without_a_lease"), pytest.param(leased("file", OTHER_KEY, "RH"), id="with_a_lease"),
        pytest.param(leased("file", OTHER_KEY, "RWH", durable=True), id="durable"),
        pytest.param(create("file", level=BATCH), id="oplock")]


def granted_alone(one: "WireClient") -> LeaseState:
    from tests.serve.wire_client import contexts_of  # pylint: disable=import-outside-toplevel
    return CreateAnswer.read(contexts_of(one.ask(leased("file", KEY, "RWH")))).state


@pytest.mark.parametrize("body", HELD)
@pytest.mark.parametrize("ending", ["tree_disconnect", "logoff_of_one_of_two", "cut"])
def test_a_create_that_is_answered_too_late(served: ServerProcess, connect: Connect, body: Body, ending: str) -> None:
    """Nothing of it is left: once the one who held it has closed, the next open is alone with the file."""
    one, other = connect(served), connect(served)
    held = one.open(leased("file", KEY, "RWH"))
    if ending == "logoff_of_one_of_two":
        other.set_up_another_session()
    number = other.send(body)
    assert other.receive().status == Status.PENDING
    if ending == "cut":
        other.close()
    else:
        assert other.status(TREE_DISCONNECT if ending == "tree_disconnect" else LOGOFF) == Status.SUCCESS
    one.ask(acknowledgment(KEY, "RH"))
    one.ask(close(held))
    if ending != "cut":
        expected = Status.NETWORK_NAME_DELETED if ending == "tree_disconnect" else Status.USER_SESSION_DELETED
        assert other.answer_to(number).status == expected
    assert granted_alone(one) == LeaseState.of("RWH")


def test_a_durable_open_that_was_connected_again_goes_with_its_tree(served: ServerProcess, connect: Connect) -> None:
    guid, one = b"8" * 16, connect(served)
    other = connect(served, guid)
    durable = other.open(leased("file", OTHER_KEY, "RWH", durable=True))
    other.close()
    other = connect(served, guid)
    number = other.send(create("file", level=0xFF, contexts=CreateAsk(OTHER_KEY, reconnect=durable).write()))
    other.send(TREE_DISCONNECT)
    assert other.answer_to(number).status == Status.SUCCESS
    assert granted_alone(one) == LeaseState.of("RWH")


def test_oplocks_that_are_granted_too_late(served: ServerProcess, connect: Connect) -> None:
    """Each oplock is a client of the manager, which goes with it."""
    one, other = connect(served), connect(served)
    for _ in range(30):
        held = one.open(leased("file", KEY, "RWH"))
        number = other.send(create("file", level=BATCH))
        assert other.receive().status == Status.PENDING
        assert other.status(TREE_DISCONNECT) == Status.SUCCESS
        one.ask(acknowledgment(KEY, "RH"))
        assert other.answer_to(number).status == Status.NETWORK_NAME_DELETED
        one.ask(close(held))
        other.connect_tree()
