"""What a request costs is checked against what it transfers (MS-SMB2 3.3.5.2.5, 3.1.5.2): one credit for each 64 KiB."""
from __future__ import annotations

import struct

import pytest

from smblease import Status
from smblease.drive.headers import Command
from smblease.serve.server_process import ServerProcess
from tests.serve.conftest import Connect
from tests.serve.requests import Body, create, read, set_info, wire, write

PART = 65536


def query_info(file_id: int, most: int, given: int = 0) -> Body:
    return Command.QUERY_INFO, struct.pack("<HBBLHHLLL16s", 41, 1, 18, most, 0, 0, given, 0, 0, wire(file_id)) + b"\0"


def query_directory(file_id: int, most: int) -> Body:
    return Command.QUERY_DIRECTORY, struct.pack("<HBBL16sHHL", 33, 37, 1, 0, wire(file_id), 96, 2, most) + b"*\0"


def control(file_id: int, most: int) -> Body:
    return Command.IOCTL, struct.pack("<HHL16sLLLLLLLL", 57, 0, 0x00140204, wire(file_id), 0, 0, 0, 0, 0, most, 1, 0) + b"\0"


def where_enough(body: Body) -> Status:
    """What is answered where the charge is enough."""
    return Status.INVALID_DEVICE_REQUEST if body[0] is Command.IOCTL else Status.SUCCESS


@pytest.mark.parametrize("length, charge, is_enough", [
    (PART, 0, True), (PART, 1, True), (PART + 1, 0, False), (PART + 1, 1, False), (PART + 1, 2, True), (3 * PART, 2, False),
    (3 * PART, 3, True), (0, 0, True), (0, 1, True), (1, 5, True),
])
def test_a_charge(shared: ServerProcess, connect: Connect, length: int, charge: int, is_enough: bool) -> None:
    one = connect(shared)
    opened, folder = one.open(create("file")), one.open(create("", access=0x81, disposition=1, options=1))
    one.ask(write(opened, 0, b"bytes"))
    bodies = [read(opened, length), write(opened, 0, bytes(length)), query_info(opened, max(length, 500)),
              query_directory(folder, max(length, 500)), control(opened, length)]
    found = [one.answer_to(one.send(it, charge=charge)).status for it in bodies]
    assert found == [where_enough(it) if is_enough else Status.INVALID_PARAMETER for it in bodies]


def test_what_is_given_counts_too(shared: ServerProcess, connect: Connect) -> None:
    """The larger one of what is sent and what may be answered."""
    one = connect(shared)
    opened = one.open(create("file"))
    bodies = [query_info(opened, 500, PART + 1), set_info(opened, 20, struct.pack("<Q", 5) + bytes(PART))]
    assert [one.answer_to(one.send(it, charge=1)).status for it in bodies] == [Status.INVALID_PARAMETER] * 2
    assert one.answer_to(one.send(bodies[1], charge=2)).status == Status.SUCCESS
