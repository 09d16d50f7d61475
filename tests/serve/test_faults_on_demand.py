"""What somebody has happen, or go wrong with the next message, by lines of control."""
from __future__ import annotations

import struct
import time
import uuid
from pathlib import Path
from typing import TYPE_CHECKING

import pytest

from smblease import CreateAsk, LeaseState, Notification, Status
from smblease.drive.faults import DriveFault
from smblease.drive.headers import HEADER, UNASKED, Command, Message
from smblease.serve.server_process import ServerProcess
from tests.serve.conftest import Connect, Start
from tests.serve.requests import (ECHO, KEY, OTHER_KEY, acknowledgment, close, compound, create, leased, query_info, read, write)

if TYPE_CHECKING:
    from tests.serve.wire_client import WireClient

BATCH, LEVEL_II = 9, 1
SOON = 0.3
# STATUS_NETWORK_SESSION_EXPIRED (MS-ERREF 2.3.1), by which a server asks a client to authenticate again.
EXPIRED = 0xC000035C


def parted(message: Message) -> tuple[str, str, bool]:
    """Of a lease break (2.2.23.2): from which state to which, and whether it is to be acknowledged."""
    assert message.identifier == UNASKED
    found = Notification.read(message.data[HEADER:])
    return str(found.current), str(found.new), found.ack_required


# From one state to another by the breaks that a server sends for a second client: one that opens ends W, one that shares nothing
# ends H, one that writes ends all.
@pytest.mark.parametrize("state, lower, breaks", [
    ("RWH", "RH", ["RH"]), ("RWH", "RW", ["RW"]), ("RWH", "R", ["RW", "R"]), ("RWH", "none", ["RH", "none"]),
    ("RW", "R", ["R"]), ("RW", "none", ["R", "none"]), ("RH", "R", ["R"]), ("RH", "none", ["none"]), ("R", "none", ["none"])])
def test_a_lease_is_lowered(served: ServerProcess, connect: Connect, state: str, lower: str, breaks: list[str]) -> None:
    """Nothing else of its open changes, and nobody has the file open by it."""
    one, other = connect(served), connect(served)
    held = one.open(leased("file", KEY, state))
    assert served.tell(f"break 1 {KEY.hex} {lower}")
    was = state
    for lowered in breaks:
        is_acknowledged = was != "R"
        assert parted(one.receive()) == (was, lowered, is_acknowledged)
        if is_acknowledged:
            assert one.ask(acknowledgment(KEY, lowered)).status == Status.SUCCESS
        was = lowered
    assert one.status(write(held)) == Status.SUCCESS
    assert not one.has_more(SOON)
    one.ask(close(held))
    assert other.status(create("file", share=0)) == Status.SUCCESS


def test_the_record_of_a_lease_that_is_lowered(start: Start, connect: Connect, tmp_path: Path) -> None:
    """It has what its client is sent and believes, and nothing of who asked."""
    record = tmp_path / "record"
    server = start(record=record)
    one = connect(server)
    one.open(leased("file", KEY, "RWH"))
    assert server.tell(f"break 1 {KEY.hex} none")
    for lowered in ("RH", "none"):
        one.receive()
        one.ask(acknowledgment(KEY, lowered))
    one.ask(ECHO)
    server.close()
    assert server.verdict == "safe"
    lines = [it for it in record.read_text(encoding="utf-8").splitlines() if not it.startswith("#")]
    assert [it for it in lines if it.startswith("believes")] == [f"believes 1 1 {it}" for it in ("RWH", "RH", "none")]
    assert {it.split(" ")[1] for it in lines if not it.startswith("start")} == {"1"}


def test_a_lease_is_lowered_while_others_have_it_open(served: ServerProcess, connect: Connect) -> None:
    """They are asked for what that costs, as by any client."""
    one, other = connect(served), connect(served)
    one.open(leased("file", KEY, "RH"))
    other.open(leased("file", OTHER_KEY, "RH"))
    assert served.tell(f"break {uuid.UUID(bytes=one.guid)} {KEY.hex} R")
    assert [parted(it.receive())[:2] for it in (one, other)] == [("RH", "R")] * 2


@pytest.mark.parametrize("line", [f"break 2 {KEY.hex} R", f"break 1 {OTHER_KEY.hex} R", f"break 1 {KEY.hex} RWH",
                                  f"break 1 {KEY.hex} RW", f"break {uuid.UUID(int=7)} {KEY.hex} none", "break 1 oplock none"])
def test_a_lease_that_can_not_be_lowered(served: ServerProcess, connect: Connect, line: str) -> None:
    one = connect(served)
    one.open(leased("file", KEY, "RH"))
    assert not served.tell(line)
    assert not one.has_more(SOON)


def test_a_lease_that_is_being_broken(served: ServerProcess, connect: Connect) -> None:
    connect(served).open(leased("file", KEY, "RWH"))
    assert [served.tell(f"break 1 {KEY.hex} {it}") for it in ("RH", "none")] == [True, False]


@pytest.mark.parametrize("share, state, can_be_had", [(6, "RH", False), (1, "none", False), (1, "RH", True), (0, "RW", True)])
def test_a_state_that_an_open_is_in_the_way_of(served: ServerProcess, connect: Connect, share: int, state: str,
                                               can_be_had: bool) -> None:
    """Who would read or write is refused where that isn't shared, and breaks no more than handles."""
    one = connect(served)
    one.open(create("file", share=share, level=0xFF, contexts=CreateAsk(KEY, LeaseState.of("RWH")).write()))
    if can_be_had:
        assert served.tell(f"break 1 {KEY.hex} {state}")
        assert parted(one.receive()) == ("RWH", state, True)
    else:
        with pytest.raises(DriveFault, match="refused"):
            served.tell(f"break 1 {KEY.hex} {state}")
        assert not one.has_more(SOON)


def test_an_oplock_is_lowered(served: ServerProcess, connect: Connect) -> None:
    """It is a client of its own in the record, the one after its client."""
    one = connect(served)
    held = one.open(create("file", level=BATCH))
    assert served.tell("break 2 oplock RH")
    message = one.receive()
    assert (message.identifier, message.number(HEADER + 2, 1), message.number(HEADER + 8, 8)) == (UNASKED, LEVEL_II, held)


def test_an_answer_that_is_dropped(served: ServerProcess, connect: Connect) -> None:
    """What was asked is done; the next answer comes."""
    one = connect(served)
    held = one.open(create("file"))
    assert served.tell("drop WRITE 1")
    one.send(write(held, 0, b"dropped"))
    assert not one.has_more(SOON)
    assert one.ask(read(held)).data[-7:] == b"dropped"
    assert one.status(write(held)) == Status.SUCCESS


def test_an_answer_of_a_compound_that_is_dropped(served: ServerProcess, connect: Connect) -> None:
    one = connect(served)
    assert served.tell("drop QUERY_INFO")
    bodies = [create("file"), query_info((1 << 64) - 1, 18), close((1 << 64) - 1)]
    one.stream.sendall(compound(one.number, one.session, one.tree, bodies))
    one.number += 3
    first = one.receive()
    parts = first, Message(first.data[first.number(20, 4):])
    assert [(it.command, it.status) for it in parts] == [(Command.CREATE, Status.SUCCESS), (Command.CLOSE, Status.SUCCESS)]


def test_an_answer_that_is_delayed(served: ServerProcess, connect: Connect) -> None:
    """Others come before it."""
    one = connect(served)
    held, begun = one.open(create("file")), time.monotonic()
    assert served.tell("delay 0.5 READ")
    number = one.send(read(held))
    assert one.status(ECHO) == Status.SUCCESS
    assert one.receive().identifier == number
    assert 0.5 <= time.monotonic() - begun < 5


def test_answers_in_another_order(served: ServerProcess, connect: Connect) -> None:
    one = connect(served)
    assert served.tell("reorder ECHO")
    numbers = [one.send(ECHO) for _ in range(3)]
    assert [one.receive().identifier for _ in range(3)] == [numbers[1], numbers[0], numbers[2]]


def test_a_break_after_the_answer_that_came_after_it(served: ServerProcess, connect: Connect) -> None:
    one = connect(served)
    one.open(leased("file", KEY, "RWH"))
    assert served.tell("reorder NOTIFICATION") and served.tell(f"break 1 {KEY.hex} RH")
    assert not one.has_more(SOON)
    number = one.send(ECHO)
    assert [one.receive().identifier for _ in range(2)] == [number, UNASKED]


def test_a_break_that_is_dropped(start: Start, connect: Connect) -> None:
    """Its timer runs, and the create that waits goes on by that."""
    server = start("--break-timer", "1")
    one, other = connect(server), connect(server)
    held = one.open(leased("file", KEY, "RWH"))
    assert server.tell("drop NOTIFICATION 1")
    assert other.status(create("file")) == Status.SUCCESS
    assert one.status(read(held)) == Status.FILE_CLOSED


@pytest.mark.parametrize("name, status", [("DISK_FULL", Status.DISK_FULL), ("STATUS_DISK_FULL", Status.DISK_FULL),
                                          ("0xc000035c", EXPIRED)])
def test_a_request_that_is_refused(served: ServerProcess, connect: Connect, name: str, status: int) -> None:
    """It isn't carried out; the next one is."""
    one = connect(served)
    assert served.tell(f"refuse {name} CREATE")
    assert one.status(create("file")) == status
    assert one.status(create("file", disposition=1)) == Status.OBJECT_NAME_NOT_FOUND
    assert one.status(create("file")) == Status.SUCCESS


def test_faults_of_one_client(served: ServerProcess, connect: Connect) -> None:
    """Another one's messages go as they go, and so do those of another kind. Of several faults the first one is first."""
    one, other = connect(served), connect(served)
    for line in ("refuse DISK_FULL CREATE 2", "refuse ACCESS_DENIED CREATE", "refuse DELETE_PENDING ECHO"):
        assert served.tell(line)
    assert one.status(create("file")) == Status.ACCESS_DENIED
    assert [other.status(create("file")) for _ in range(2)] == [Status.DISK_FULL, Status.SUCCESS]
    assert one.status(create("file")) == Status.SUCCESS


def again(number: int) -> bytes:
    return CreateAsk(KEY, LeaseState.of("RWH"), reconnect=number).write()


def test_a_session_that_is_ended(served: ServerProcess, connect: Connect) -> None:
    """As by a PreviousSessionId: a durable open is there for its client again, on the same connection."""
    one = connect(served, b"5" * 16)
    number = one.open(leased("file", KEY, "RWH", durable=True))
    assert served.tell("logoff 1")
    assert one.status(read(number)) == Status.USER_SESSION_DELETED
    one.session = one.set_up_another_session()
    one.connect_tree()
    assert one.status(create("file", level=0xFF, contexts=again(number))) == Status.SUCCESS
    assert not served.tell("logoff 9")


def test_a_connection_that_is_ended(served: ServerProcess, connect: Connect) -> None:
    guid = b"5" * 16
    one, other = connect(served, guid), connect(served)
    number = one.open(leased("file", KEY, "RWH", durable=True))
    assert served.tell(f"disconnect {uuid.UUID(bytes=guid)}")
    assert one.has_more(5) and is_closed(one)
    assert other.status(ECHO) == Status.SUCCESS
    assert connect(served, guid).status(create("file", level=0xFF, contexts=again(number))) == Status.SUCCESS
    assert not served.tell("disconnect 9")


def is_closed(client: "WireClient") -> bool:
    try:
        return client.stream.recv(1) == b""
    except ConnectionResetError:
        return True


@pytest.mark.parametrize("line", [
    "", "break", "break 1 61 R", f"break 1 {KEY.hex}", f"break 1 {KEY.hex} W", f"break 1 {KEY.hex} R R", "logoff", "logoff 1 2",
    "logoff one", "disconnect", "drop", "drop SOMETHING", "drop read", "drop READ 1 2", "drop CANCEL", "drop READ one",
    "delay READ", "delay -1 READ", "delay nan READ", "delay 5000 READ", "refuse READ", "refuse SUCCESS READ",
    "refuse PENDING READ", "refuse NOTHING READ", "refuse 0xc0 READ", "refuse 0x100000000 READ", "refuse DISK_FULL NOTIFICATION",
    "reorder", "wait READ", "halt"])
def test_a_line_that_is_refused(shared: ServerProcess, line: str) -> None:
    with pytest.raises(DriveFault, match="refused"):
        shared.tell(line)


def test_the_record_of_a_fault(start: Start, connect: Connect, tmp_path: Path) -> None:
    """From there on nothing is promised to the client. One that is refused something is as any that is."""
    record = tmp_path / "record"
    server = start(record=record)
    one, other = connect(server), connect(server)
    one.open(create("file", level=BATCH))
    for line in ("refuse DISK_FULL ECHO 2", "drop ECHO 1"):
        assert server.tell(line)
    one.send(ECHO)
    for client in (one, other):
        client.ask(ECHO)
    server.close()
    assert server.verdict == "safe"
    lines = record.read_text(encoding="utf-8").splitlines()
    assert [it for it in lines if it.startswith("strayed")] == ["strayed 1", "strayed 3"], "it, and its oplock"
    assert lines[lines.index("strayed 1") - 1] == "# client 1 doesn't get what is sent as it is sent: drop"


def test_what_a_delayed_answer_says(served: ServerProcess, connect: Connect) -> None:
    """It is the one that was given at its place in the order, whatever is done before it goes."""
    one = connect(served)
    held = one.open(create("file"))
    one.ask(write(held, 0, b"before"))
    assert served.tell("delay 0.2 READ")
    number = one.send(read(held))
    one.ask(write(held, 0, b"after!"))
    message = one.answer_to(number)
    length, = struct.unpack_from("<L", message.data, HEADER + 4)
    assert message.data[80:80 + length] == b"before"
