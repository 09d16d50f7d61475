"""Calls that are refused: wrong lengths, numbers out of range, values of another type, and objects that hold nothing."""
from __future__ import annotations

import inspect
import pickle
import uuid
from collections.abc import Callable
from typing import Any

import pytest

from smblease import (Access, AcknowledgeDone, AcknowledgeFailed, AcknowledgeRequest, Acknowledgment, Break, Client,
                      ClientVersions, Closed, Context, CreateAnswer, CreateAsk, CreateRequest, Extent, Fault, LeaseState, Manager,
                      Notification, Quiet, ReadRequest, Response, Rules, Server, Share, Status, Versions, WriteDone, WriteRequest,
                      append_context, each_context)

GUID = uuid.UUID(int=1)
RW, RH = LeaseState.of("RW"), LeaseState.of("RH")
LONG = 1 << 64
CLIENT, SERVER, MANAGER = Client(GUID, 1), Server([b"abc"]), Manager(Rules())
# (mypy would refuse arguments of other types)
client: Any = CLIENT
server: Any = SERVER
manager: Any = MANAGER
versions: Any = Versions(MANAGER)
client_versions: Any = ClientVersions()
any_client: Any = Client
any_server: Any = Server
any_manager: Any = Manager
any_rules: Any = Rules
any_ask: Any = CreateAsk
any_answer: Any = CreateAnswer
create: Any = CreateRequest


def refused(name: str, call: Callable[[], object], kind: type[BaseException] = ValueError, word: str = "") -> Any:
    return pytest.param(call, kind, word, id=name)


DURABLE = CreateAsk(durable=True).write()
CHAINED = len(DURABLE).to_bytes(4, "little") + DURABLE[4:]
HALF = bytes((0, 0, 0, 0, 24, 0, 4)) + bytes(17) + b"DHnQ" + bytes(4)


@pytest.mark.parametrize("call, kind, word", [
    refused("256 files of a client", lambda: Client(GUID, 256), word="files is a number from 0 to 255, and not 256"),
    refused("-1 files of a client", lambda: Client(GUID, -1), word="files"),
    refused("a GUID as bytes", lambda: any_client(bytes(16), 1), TypeError, "uuid.UUID"),
    refused("file 256", lambda: client.read(256), word="file"),
    refused("file -1", lambda: client.close_file(-1), word="file"),
    refused("a file that is a text", lambda: client.flush("1"), TypeError),
    refused("an offset of 33 bits", lambda: client.write(1, 1 << 32, b"X"), word="offset"),
    refused("an offset below 0", lambda: client.write(1, -1, b"X"), word="offset"),
    refused("a write of a number", lambda: client.write(1, 0, 5), TypeError),
    refused("a write of a text", lambda: client.write(1, 0, "X"), TypeError),
    refused("an access of 4", lambda: client.open(1, 4, Share.READ, RW), word="Access"),
    refused("a share of 4", lambda: client.open(1, Access.READ, 4, RW), word="Share"),
    refused("a state of 8", lambda: client.open(1, Access.READ, Share.READ, 8), word="LeaseState"),
    refused("a text that is no state", lambda: client.open(1, Access.READ, Share.READ, "HWR"),
            word="'HWR' is no lease state: none, or letters in the order R, W, H"),
    refused("a text that is no state in contexts", lambda: any_ask(GUID, "HWR").write(), word="'HWR' is no lease state"),
    refused("a state as a text", lambda: client.open(1, Access.READ, Share.READ, "RH"), word="LeaseState.of('RH')"),
    refused("a file that is to be closed", lambda: client.close(1), TypeError, "close_file(1) closes a file"),
    refused("a FileId of 65 bits", lambda: client.take(Closed(LONG)), word="file_id"),
    refused("a write's number of 65 bits", lambda: client.take(WriteDone(1, LONG)), word="number"),
    refused("a status of 33 bits", lambda: client.take(AcknowledgeFailed(1 << 32)), word="status"),
    refused("a notification of 43 bytes", lambda: client.take(Break(bytes(43))), word="44 bytes, and not 43"),
    refused("a notification of 45 bytes", lambda: client.take(Break(bytes(45))), word="44 bytes, and not 45"),
    refused("a response of 35 bytes", lambda: client.take(AcknowledgeDone(bytes(35))), word="36 bytes, and not 35"),
    refused("a response of 37 bytes", lambda: client.take(AcknowledgeDone(bytes(37))), word="36 bytes, and not 37"),
    refused("a request in the place of a reply", lambda: client.take(ReadRequest(1)), TypeError, "a reply is needed"),
    refused("256 files of a server", lambda: Server([b""] * 256), word="at most 255 files"),
    refused("a file of 1048577 bytes", lambda: Server([bytes(1048577)]), word="1048576 bytes"),
    refused("a file that is a number", lambda: any_server([5]), TypeError),
    refused("rules as a text", lambda: any_server([], "by-key,whole"), TypeError, "Rules.of('by-key,whole')"),
    refused("an order of 2", lambda: any_server([], any_rules(2)), word="Order"),
    refused("client 256", lambda: server.join(256), word="client"),
    refused("client -1", lambda: server.cut(-1), word="client"),
    refused("a key as bytes", lambda: server.expire(1, bytes(16)), TypeError, "uuid.UUID"),
    refused("a scavenged FileId of 65 bits", lambda: server.scavenge(LONG), word="file_id"),
    refused("a received access of 0", lambda: server.receive(1, create(1, 0, Share.READ, b"")), word="Access"),
    refused("a received share of -1", lambda: server.receive(1, create(1, Access.READ, -1, b"")), word="Share"),
    refused("contexts that are a number", lambda: server.receive(1, create(1, Access.READ, Share.READ, 7)), TypeError),
    refused("a received offset of 33 bits", lambda: server.receive(1, WriteRequest(1, 1, 1 << 32, b"")), word="offset"),
    refused("an acknowledgment of 37 bytes", lambda: server.receive(1, AcknowledgeRequest(bytes(37))),
            word="36 bytes, and not 37"),
    refused("a reply in the place of a request", lambda: server.receive(1, Closed(1)), TypeError, "a request is needed"),
    refused("the content of file 0", lambda: server.content(0)),
    refused("the content of file 2", lambda: server.content(2)),
    refused("the content of file 256", lambda: server.content(256), word="file"),
    refused("rules of a manager as a text", lambda: any_manager("by-key,whole"), TypeError, "Rules.of('by-key,whole')"),
    refused("2^64 files of a manager", lambda: any_manager(Rules(), files=LONG), word="files"),
    refused("client 2^64 of a manager", lambda: manager.join(LONG), word="client"),
    refused("tag -1", lambda: manager.read(1, -1, 1), word="tag"),
    refused("a closed FileId of 65 bits", lambda: manager.close_open(1, 10, LONG), word="file_id"),
    refused("file 2^64 of a manager", lambda: manager.withdraw(1, 10, LONG), word="file"),
    refused("an access of 0 of a manager", lambda: manager.create(1, 10, 1, 0, Share.READ), word="Access"),
    refused("a share of 4 of a manager", lambda: manager.create(1, 10, 1, Access.READ, 4), word="Share"),
    refused("a FileId of 65 bits that a client leaves", lambda: manager.leave(1, [LONG]), word="file_id"),
    refused("a tag of -1 that a client leaves", lambda: manager.leave(1, [], [-1]), word="tag"),
    refused("an extent of 3 of a change", lambda: manager.change(1, 10, None, 1, 3), word="Extent"),
    refused("a tag of -1 of a change", lambda: manager.change(1, -1, None, 1, Extent.ALL), word="tag"),
    refused("file 2^64 of a change", lambda: manager.change(1, 10, None, LONG, Extent.ALL), word="file"),
    refused("a change's key as bytes", lambda: manager.change(1, 10, bytes(16), 1, Extent.ALL), TypeError, "uuid.UUID"),
    refused("an extent of 3", lambda: manager.give_up(1, None, 1, 3), word="Extent"),
    refused("an extent of 0 that is asked about", lambda: manager.given_up(1, None, 1, 0), word="Extent"),
    refused("a manager's key as bytes", lambda: manager.expire(1, bytes(16)), TypeError, "uuid.UUID"),
    refused("tag 2^64 of a create of version 2", lambda: versions.asked(1, LONG, b""), word="tag"),
    refused("contexts that are a number", lambda: versions.asked(1, 1, 16), TypeError),
    refused("a timeout of 33 bits", lambda: versions.follow(0, 1 << 32), word="timeout"),
    refused("contexts of a machine that are a number", lambda: client_versions.ask(16, GUID), TypeError),
    refused("contexts of a machine that can't be read", lambda: client_versions.ask(bytes(5), GUID), word="can't be read"),
    refused("a CreateGuid as bytes", lambda: client_versions.ask(b"", bytes(16)), TypeError, "UUID"),
    refused("a parent as bytes", lambda: client_versions.ask(b"", GUID, bytes(16)), TypeError, "UUID"),
    refused("an answered FileId of 65 bits", lambda: client_versions.answered(LONG, GUID, b""), word="file_id"),
    refused("an answer that can't be read", lambda: client_versions.answered(1, GUID, bytes(5)), word="can't be read"),
    refused("a notification of 0 in place of 44", lambda: client_versions.noticed(bytes(44)), word="can't be read"),
    refused("a notification of 43 bytes that came", lambda: client_versions.noticed(b"\x2c" + bytes(42)), word="can't be read"),
    refused("a FileId of 65 bits that a client closed", lambda: client_versions.forget(LONG), word="file_id"),
    refused("a FileId of 65 bits in contexts", lambda: CreateAsk(reconnect=LONG).write(), word="reconnect"),
    refused("a name of 65,513 bytes", lambda: append_context(DURABLE, Context(bytes(65513), b"")), word="doesn't fit"),
    refused("a key as bytes in contexts", lambda: any_answer(bytes(16), RH).write(), TypeError, "UUID"),
    refused("a text that is a number", lambda: any_ask.read(16), TypeError),
    refused("a state that is none", lambda: LeaseState.of("WR"), word="'WR' is no lease state"),
])
def test_refused(call: Callable[[], object], kind: type[BaseException], word: str) -> None:
    with pytest.raises(kind) as raised:
        call()
    assert word in str(raised.value)


@pytest.mark.parametrize("message", [bytearray(44), memoryview(bytes(44))], ids=["bytearray", "memoryview"])
def test_a_notification_in_other_bytes(message: bytearray | memoryview) -> None:
    assert CLIENT.take(Break(message)).answer == Quiet()


def test_255_files_of_a_server() -> None:
    assert Server([b""] * 254 + [b"z"]).content(255) == b"z"


def test_a_file_of_1048576_bytes() -> None:
    assert len(Server([bytes(1048576)]).content(1)) == 1048576


# Arguments of each method that is refused once the object holds nothing.
CLIENT_CALLS: dict[str, tuple[Any, ...]] = {
    "connect": (), "notice": (), "open": (1, Access.READ, Share.READ, RW), "close_file": (1,), "read": (1,),
    "write": (1, 0, b"X"), "flush": (1,), "take": (Closed(1),), "belief": (1,), "__enter__": (),
}
SERVER_CALLS: dict[str, tuple[Any, ...]] = {
    "join": (1,), "cut": (1,), "expire": (1, GUID), "scavenge": (1,), "receive": (1, ReadRequest(1)), "allowed": (1, None, 1, RW),
    "connected": (1,), "breaking": (1, GUID), "left_behind": (1,),
    "kept": (1, 1), "content": (1,), "__enter__": (),
}
MANAGER_CALLS: dict[str, tuple[Any, ...]] = {
    "join": (1,), "cut": (1,), "expire": (1, GUID), "run_out": (1,), "scavenge": (1,),
    "create": (1, 10, 1, Access.READ, Share.READ), "read": (1, 10, 1), "write": (1, 10, 1), "close_open": (1, 10, 1),
    "acknowledge": (1, Acknowledgment(GUID, RH)), "acknowledge_malformed": (1,), "withdraw": (1, 10, 1), "connected": (1,),
    "breaking": (1, GUID), "waiting": (1, 10, 1), "left_behind": (1,), "has_open": (1,), "open_count": (),
    "allowed": (1, None, 1, RW), "kept": (1, 1), "lease": (1, GUID), "opens": (), "leases": (), "requests": (),
    "leave": (1, [1], [10]), "export": (),
    "change": (1, 10, None, 1, Extent.ALL), "changes": (),
    "give_up": (1, None, 1, Extent.ALL), "given_up": (1, None, 1, Extent.ALL), "may_read": (1, 1), "may_write": (1, 1),
    "__enter__": (),
}
VERSIONS_CALLS: dict[str, tuple[Any, ...]] = {
    "asked": (1, 10, b""), "closing": (1, 11, 1), "forget": (1,), "leave": (1, [10]), "follow": (0,), "__enter__": (),
}
CLIENT_VERSIONS_CALLS: dict[str, tuple[Any, ...]] = {
    "ask": (b"", GUID), "answered": (1, GUID, b""), "noticed": (b"\x2c" + bytes(43),), "forget": (1,), "__enter__": (),
}
# (these ask nothing of the machine)
FREE = {"close", "closed", "key"}


def closed(kind: str) -> Any:
    made: dict[str, Callable[[], Any]] = {"client": lambda: Client(GUID, 1), "server": lambda: Server([b"abc"]),
                                          "manager": lambda: Manager(Rules()), "versions": lambda: Versions(Manager(Rules())),
                                          "client versions": ClientVersions}
    machine = made[kind]()
    with machine:
        pass
    return machine


ALL_CALLS = {"client": CLIENT_CALLS, "server": SERVER_CALLS, "manager": MANAGER_CALLS, "versions": VERSIONS_CALLS,
             "client versions": CLIENT_VERSIONS_CALLS}
CLOSED_CALLS = [pytest.param(kind, method, arguments, id=f"{kind}-{method}") for kind, calls in ALL_CALLS.items()
                for method, arguments in calls.items()]


@pytest.mark.parametrize("kind, method, arguments", CLOSED_CALLS)
def test_a_call_of_a_closed_machine(kind: str, method: str, arguments: tuple[Any, ...]) -> None:
    with pytest.raises(ValueError, match=f"the {kind} is closed"):
        getattr(closed(kind), method)(*arguments)


@pytest.mark.parametrize("machine, calls", [pytest.param(Client, CLIENT_CALLS, id="client"),
                                            pytest.param(Server, SERVER_CALLS, id="server"),
                                            pytest.param(Manager, MANAGER_CALLS, id="manager"),
                                            pytest.param(Versions, VERSIONS_CALLS, id="versions"),
                                            pytest.param(ClientVersions, CLIENT_VERSIONS_CALLS, id="client versions")])
def test_each_method_of_a_closed_machine_is_tried(machine: type, calls: dict[str, tuple[Any, ...]]) -> None:
    public = {it for it, _ in inspect.getmembers(machine) if not it.startswith("_")} - FREE
    assert public == set(calls) - {"__enter__"}


@pytest.mark.parametrize("kind", ALL_CALLS)
def test_a_machine_is_closed_twice(kind: str) -> None:
    machine = closed(kind)
    machine.close()
    assert machine.closed


@pytest.mark.parametrize("call, expected", [
    (lambda: CreateAsk.read(bytes(15)), (1, "Short", 0)), (lambda: CreateAsk.read(CHAINED), (1, "Short", len(DURABLE))),
    (lambda: Notification.read(bytes(43)), (1, "Short", 0)), (lambda: Notification.read(bytes(44)), (2, "WrongSize", 0)),
    (lambda: Response.read(bytes([44]) + bytes(43)), (2, "WrongSize", 0)),
    (lambda: CreateAnswer.read(bytes([8]) + bytes(31)), (3, "BadNext", 0)),
    (lambda: CreateAsk.read(bytes(4) + bytes([15]) + bytes(19)), (4, "BadName", 0)),
    (lambda: CreateAsk.read(bytes(4) + bytes([16]) + bytes(7) + bytes([1]) + bytes(11)), (5, "BadData", 0)),
    (lambda: CreateAsk.read(HALF), (6, "BadLength", 0)), (lambda: CreateAsk.read(CHAINED + DURABLE), (7, "Twice", len(DURABLE))),
    (lambda: list(each_context(CHAINED)), (1, "Short", len(DURABLE))),
    (lambda: append_context(CHAINED, Context(b"QFid", b"")), (1, "Short", len(DURABLE))),
])
def test_faults_of_texts(call: Callable[[], object], expected: tuple[int, str, int]) -> None:
    with pytest.raises(Fault) as raised:
        call()
    fault, (number, name, place) = raised.value, expected
    assert (fault.number, fault.name, fault.place, fault.status) == (number, name, place, Status.INVALID_PARAMETER)
    assert str(fault) == str(pickle.loads(pickle.dumps(fault))) == f"fault {number} {name} at {place}"
