"""Who may do what: everyone may do all, and what says otherwise isn't taken (MS-DTYP 2.4)."""
from __future__ import annotations

import struct

import pytest

from smblease import Status
from smblease.drive.headers import Command
from smblease.serve.server_process import ServerProcess
from tests.serve.conftest import Connect
from tests.serve.requests import Body, create, query_info, set_info, wire

ALL, OWNER, GROUP, ACCESS, AUDITING = 0x1F01FF, 1, 2, 4, 8
EVERYONE, CREATOR = bytes.fromhex("010100000000000100000000"), bytes.fromhex("010100000000000300000000")
OBJECT_ID, SET_SPARSE = 0x900C0, 0x900C4


def descriptor(*entries: bytes, owner: bytes = EVERYONE, group: bytes = EVERYONE, control: int = 0x8004) -> bytes:
    listed = struct.pack("<BBHHH", 2, 0, 8 + len(b"".join(entries)), len(entries), 0) + b"".join(entries)
    return struct.pack("<BBHLLLL", 1, 0, control, 20, 32, 0, 44) + owner + group + listed


def entry(rights: int = ALL, whose: bytes = EVERYONE, kind: int = 0, flags: int = 0) -> bytes:
    return struct.pack("<BBHL", kind, flags, 8 + len(whose), rights) + whose


def secured(file_id: int, data: bytes, parts: int = ACCESS) -> Body:
    fixed = struct.pack("<HBBLHHL16s", 33, 3, 0, len(data), 96, 0, parts, wire(file_id))
    return Command.SET_INFO, fixed + data


def controlled(file_id: int, code: int, most: int = 64) -> Body:
    return Command.IOCTL, struct.pack("<HHL16sLLLLLLLL", 57, 0, code, wire(file_id), 120, 0, 0, 0, 0, most, 1, 0) + b"\0"


@pytest.mark.parametrize("data, parts, expected", [
    pytest.param(descriptor(entry()), ACCESS, Status.SUCCESS, id="everyone may do all"),
    pytest.param(descriptor(entry()), OWNER | GROUP | ACCESS, Status.SUCCESS, id="and owns it"),
    pytest.param(descriptor(entry(0x10000000, flags=3)), ACCESS, Status.SUCCESS, id="all as a generic right"),
    pytest.param(descriptor(control=0x8000), ACCESS, Status.SUCCESS, id="no list"),
    pytest.param(descriptor(entry(whose=CREATOR, flags=8), entry()), ACCESS, Status.SUCCESS, id="what is inherited alone"),
    pytest.param(descriptor(owner=CREATOR), ACCESS, Status.NOT_SUPPORTED, id="an empty list"),
    pytest.param(descriptor(entry(0x1F01BF)), ACCESS, Status.NOT_SUPPORTED, id="less than all"),
    pytest.param(descriptor(entry(whose=CREATOR)), ACCESS, Status.NOT_SUPPORTED, id="somebody alone"),
    pytest.param(descriptor(entry(kind=1), entry()), ACCESS, Status.NOT_SUPPORTED, id="what is denied first"),
    pytest.param(descriptor(entry(), owner=CREATOR), OWNER, Status.NOT_SUPPORTED, id="another owner"),
    pytest.param(descriptor(entry(), group=CREATOR), GROUP, Status.NOT_SUPPORTED, id="another group"),
    pytest.param(descriptor(entry(), control=0x8014), AUDITING, Status.NOT_SUPPORTED, id="auditing"),
    pytest.param(descriptor(entry())[:60], ACCESS, Status.NOT_SUPPORTED, id="an entry that is cut"),
    pytest.param(descriptor(entry())[:50], ACCESS, Status.INVALID_PARAMETER, id="a list that is cut"),
    pytest.param(b"", ACCESS, Status.INVALID_PARAMETER, id="nothing"),
])
def test_a_descriptor(shared: ServerProcess, connect: Connect, data: bytes, parts: int, expected: Status) -> None:
    one = connect(shared)
    assert one.status(secured(one.open(create("file", access=ALL)), data, parts)) == expected


@pytest.mark.parametrize("access, parts, expected", [
    (0x16019F, ACCESS, Status.SUCCESS), (0x12019F, ACCESS, Status.ACCESS_DENIED), (0x1A019F, OWNER, Status.SUCCESS),
    (0x16019F, OWNER, Status.ACCESS_DENIED), (0x16019F, GROUP, Status.ACCESS_DENIED)])
def test_who_may_set_one(shared: ServerProcess, connect: Connect, access: int, parts: int, expected: Status) -> None:
    """WRITE_DAC and WRITE_OWNER are needed (MS-FSA 2.1.5.16)."""
    one = connect(shared)
    assert one.status(secured(one.open(create("file", access=access)), descriptor(entry()), parts)) == expected


def test_the_identifier_of_an_object(shared: ServerProcess, connect: Connect) -> None:
    """It stays, and no other file has it (MS-FSCC 2.3.1)."""
    one, other = connect(shared), connect(shared)
    opens = [one.open(create("file")), one.open(create("file")), one.open(create("other"))]
    answers = [one.ask(controlled(it, OBJECT_ID)) for it in opens]
    assert [(it.status, it.number(96, 4), it.number(100, 4)) for it in answers] == [(Status.SUCCESS, 112, 64)] * 3
    first, again, second = (it.part(112, 64) for it in answers)
    assert (first == again, first[:16] == second[:16], first[16:32] == second[16:32]) == (True, False, True)
    assert one.status(controlled(opens[0], OBJECT_ID, 63)) == Status.BUFFER_TOO_SMALL
    assert one.status(controlled(opens[0], SET_SPARSE)) == Status.INVALID_DEVICE_REQUEST
    assert other.status(controlled(opens[0], OBJECT_ID)) == Status.FILE_CLOSED
    assert one.status(query_info(opens[0], 6)) == Status.SUCCESS


@pytest.mark.parametrize("code", [0x60194, 0x140204, 0x1401FC])
def test_what_is_about_no_file(shared: ServerProcess, connect: Connect, code: int) -> None:
    assert connect(shared).status(controlled((1 << 64) - 1, code)) == Status.INVALID_DEVICE_REQUEST


def test_what_cannot_be_read_of_a_descriptor_changes_nothing(shared: ServerProcess, connect: Connect) -> None:
    one = connect(shared)
    opened = one.open(create("file", access=ALL))
    before = one.ask(set_info(opened, 13, b"\0")).status, one.ask(query_info(opened, 18)).data[64:]
    one.ask(secured(opened, bytes(100)))
    assert (one.ask(set_info(opened, 13, b"\0")).status, one.ask(query_info(opened, 18)).data[64:]) == before
