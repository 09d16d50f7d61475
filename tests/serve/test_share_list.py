"""The list of shares: what clients see of it, and the pipe below it, byte for byte."""
from __future__ import annotations

import random
import struct
import subprocess
import uuid
from collections.abc import Iterator

import pytest

from smblease import Status
from smblease.drive.headers import Command, Message
from smblease.serve.server_process import ServerProcess
from tests import needs
from tests.serve import requests
from tests.serve.conftest import Connect, Start
from tests.serve.requests import Body, wire
from tests.serve.test_command_line import BARE
from tests.serve.wire_client import WireClient, file_id

SRVSVC, OTHER = uuid.UUID("4b324fc8-1670-01d3-1278-5a47bf6ee188"), uuid.UUID("12345778-1234-abcd-ef00-0123456789ac")
NDR = uuid.UUID("8a885d04-1ceb-11c9-9fe8-08002b104860")
NO_SUCH_OPERATION, PROTOCOL_ERROR = 0x1C010002, 0x1C01000B


@pytest.fixture
def client(shared: ServerProcess, connect: Connect) -> Iterator[WireClient]:
    """A client with a tree connect to IPC$."""
    made = connect(shared)
    made.tree = made.ask(requests.tree_connect("IPC$")).tree
    yield made


def transceive(pipe: int, data: bytes, most: int = 4280, code: int = 0x11C017) -> Body:
    return Command.IOCTL, struct.pack("<HHL16sLLLLLLLL", 57, 0, code, wire(pipe), 120, len(data), 0, 0, 0, most, 1, 0) + data


def output(message: Message) -> bytes:
    return message.part(message.number(96, 4), message.number(100, 4))


def bind(interface: uuid.UUID = SRVSVC) -> bytes:
    """Version 3 of an interface, in NDR 2."""
    context = struct.pack("<HBB16sL16sL", 0, 1, 0, interface.bytes_le, 3, NDR.bytes_le, 2)
    return message(11, struct.pack("<HHLL", 4280, 4280, 0, 1) + context)


def message(kind: int, data: bytes, flags: int = 3) -> bytes:
    return struct.pack("<BBBBLHHL", 5, 0, kind, flags, 16, 16 + len(data), 0, 7) + data


def call(operation: int, data: bytes = b"") -> bytes:
    return message(0, struct.pack("<LHH", len(data), 0, operation) + data)


def fault(answer: bytes) -> int | None:
    """The status of a fault."""
    return int.from_bytes(answer[24:28], "little") if answer[2] == 3 else None


@needs.program("smbclient")
@pytest.mark.parametrize("interpreter, shares", [
    pytest.param((), ["share", "IPC$"], id="with_impacket", marks=needs.package("impacket")),
    pytest.param(BARE, [], id="standard_library_alone"),
])
def test_smbclient_lists_shares(start: Start, interpreter: tuple[str, ...], shares: list[str]) -> None:
    place = start(interpreter=interpreter).place
    words = ["smbclient", "-g", "-L", place.host, "-p", str(place.port), "-N", "-m", "SMB2_10"]
    listed = subprocess.run(words, stdin=subprocess.DEVNULL, capture_output=True, text=True, timeout=60, check=True)
    assert [it.split("|")[1] for it in listed.stdout.splitlines() if it.startswith(("Disk|", "IPC|"))] == shares


@needs.package("impacket")
@pytest.mark.parametrize("level, names", [(0, ["share\0", "IPC$\0"]), (1, ["share\0", "IPC$\0"]), (2, None), (502, None)])
def test_impacket_lists_shares(shared: ServerProcess, level: int, names: list[str] | None) -> None:
    """At the levels of names, and of names with types; 124 is ERROR_INVALID_LEVEL."""
    from impacket.dcerpc.v5 import srvs, transport  # pylint: disable=import-outside-toplevel
    from impacket.smbconnection import SMBConnection  # pylint: disable=import-outside-toplevel
    place = shared.place
    session = SMBConnection(place.host, place.host, sess_port=place.port)
    session.login("guest", "")
    rpc = transport.SMBTransport(place.host, filename=r"\srvsvc", smb_connection=session).get_dce_rpc()
    rpc.connect()
    rpc.bind(srvs.MSRPC_UUID_SRVS)
    if names is None:
        with pytest.raises(srvs.DCERPCSessionError) as refused:
            srvs.hNetrShareEnum(rpc, level)
        assert refused.value.get_error_code() == 124
    else:
        found = srvs.hNetrShareEnum(rpc, level)
        entries = found["InfoStruct"]["ShareInfo"][f"Level{level}"]["Buffer"]
        assert [it[f"shi{level}_netname"] for it in entries] == names
        assert found["TotalEntries"] == len(names)
    session.close()


def test_an_answer_is_read_in_parts(client: WireClient) -> None:
    pipe = client.open(requests.create("srvsvc"))
    first = client.ask(transceive(pipe, bind(), 10))
    assert (first.status, len(output(first))) == (Status.BUFFER_OVERFLOW, 10)
    assert client.status(transceive(pipe, bind())) == Status.PIPE_BUSY, "the answer before isn't read"
    rest = client.ask(requests.read(pipe, 4280))
    whole = output(first) + rest.part(80, rest.number(68, 4))
    assert (rest.status, whole[2], len(whole)) == (Status.SUCCESS, 12, int.from_bytes(whole[8:10], "little"))
    assert client.status(requests.read(pipe)) == Status.PIPE_EMPTY


def test_a_message_is_written_and_its_answer_read(client: WireClient) -> None:
    pipe = client.open(requests.create(r"\SrvSvc"))
    assert client.status(requests.write(pipe, 0, bind())) == Status.SUCCESS
    answer = client.ask(requests.read(pipe, 4280))
    assert answer.part(80, answer.number(68, 4))[2] == 12
    assert [client.status(it) for it in (requests.close(pipe), requests.read(pipe))] == [Status.SUCCESS, Status.FILE_CLOSED]


@pytest.mark.parametrize("sent, wanted", [
    pytest.param([call(15)], PROTOCOL_ERROR, id="not_bound"),
    pytest.param([bind(OTHER), call(15)], PROTOCOL_ERROR, id="another_interface"),
    pytest.param([bind(), call(16)], NO_SUCH_OPERATION, id="another_operation"),
    pytest.param([bind(), message(0, call(15)[16:], 1)], PROTOCOL_ERROR, id="the_first_of_several_fragments"),
    pytest.param([bind(), call(15)[:-1]], PROTOCOL_ERROR, id="a_fragment_that_is_cut"),
])
def test_what_is_not_answered(client: WireClient, sent: list[bytes], wanted: int) -> None:
    pipe = client.open(requests.create("srvsvc"))
    assert fault([output(client.ask(transceive(pipe, it))) for it in sent][-1]) == wanted


def test_what_is_refused(client: WireClient) -> None:
    pipe = client.open(requests.create("srvsvc"))
    refused: list[tuple[Body, Status]] = [
        (requests.create("lsarpc"), Status.OBJECT_NAME_NOT_FOUND), (transceive(pipe, b""), Status.INVALID_PARAMETER),
        (transceive(pipe, bytes(5000)), Status.INVALID_PARAMETER),
        (transceive(pipe, b"x", code=1), Status.INVALID_DEVICE_REQUEST),
        (transceive(pipe + 1, bind()), Status.FILE_CLOSED), (requests.query_directory(pipe), Status.INVALID_DEVICE_REQUEST),
    ]
    assert [client.status(it) for it, _ in refused] == [status for _, status in refused]
    opened = [client.status(requests.create("srvsvc")) for _ in range(16)]
    assert opened == [Status.SUCCESS] * 15 + [Status.INSUFFICIENT_RESOURCES]


def test_a_pipe_is_its_trees(client: WireClient) -> None:
    """Neither another tree connect has it, nor the same one made anew."""
    pipe, own = client.open(requests.create("srvsvc")), client.tree
    client.connect_tree()
    assert client.status(requests.read(pipe)) == Status.FILE_CLOSED
    client.tree = client.ask(requests.tree_connect("IPC$")).tree
    assert client.status(transceive(pipe, bind())) == Status.FILE_CLOSED
    client.tree = own
    assert client.status(transceive(pipe, bind())) == Status.SUCCESS


def test_damaged_messages(client: WireClient, chooser: random.Random) -> None:
    """Each is answered, with a message of DCE/RPC or a status."""
    statuses = set()
    for _ in range(300):
        data = bytearray(chooser.choice([bind(), call(15, bytes(40))]))
        for _ in range(chooser.randrange(1, 4)):
            data[chooser.randrange(len(data))] = chooser.randrange(256)
        made = client.ask(requests.create("srvsvc"))
        statuses.add(client.ask(transceive(file_id(made), bytes(data))).status)
        client.ask(requests.close(file_id(made)))
    assert statuses <= {Status.SUCCESS, Status.INVALID_PARAMETER} and Status.SUCCESS in statuses
