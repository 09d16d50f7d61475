"""Numbers from the wire that no file has: they are refused where they enter, and nothing after them fails."""
from __future__ import annotations

import struct

import pytest

from smblease import Context, Status, append_context
from smblease.serve.create_parameters import OVERWRITE_IF
from smblease.serve.server_process import ServerProcess
from tests.serve.conftest import Connect
from tests.serve.requests import Body, create, lock, query_directory, query_info, set_info, write

ALLOCATION, END_OF_FILE, POSITION, BASIC = 19, 20, 14, 4
ALL_INFORMATION = 18
# What the disk counts places with is of 63 bits.
HUGE = [(1 << 63) - 1, 1 << 63, (1 << 64) - 1]


def allocated(size: int, disposition: int = 3) -> Body:
    return create("file", contexts=append_context(b"", Context(b"AlSi", struct.pack("<Q", size))), disposition=disposition)


def check_all_is_well(served: ServerProcess, connect: Connect) -> None:
    """A client that comes then opens the file, is told all of it, and lists the folder."""
    one = connect(served)
    file_id = one.open(create("file"))
    assert one.status(query_info(file_id, ALL_INFORMATION)) == Status.SUCCESS
    assert one.status(write(file_id)) == Status.SUCCESS
    assert one.status(query_directory(one.open(create("", access=0x81, disposition=1, options=1)))) == Status.SUCCESS


@pytest.mark.parametrize("kind", [ALLOCATION, END_OF_FILE], ids=["allocation", "end_of_file"])
@pytest.mark.parametrize("size", HUGE)
def test_a_size_that_is_set(shared: ServerProcess, connect: Connect, kind: int, size: int) -> None:
    one = connect(shared)
    assert one.status(set_info(one.open(create("file")), kind, struct.pack("<Q", size))) == Status.INVALID_PARAMETER
    check_all_is_well(shared, connect)


@pytest.mark.parametrize("disposition", [3, OVERWRITE_IF], ids=["open_if", "overwrite_if"])
@pytest.mark.parametrize("size", HUGE)
def test_a_size_that_a_create_asks_for(shared: ServerProcess, connect: Connect, size: int, disposition: int) -> None:
    assert connect(shared).status(allocated(size, disposition)) == Status.INVALID_PARAMETER
    check_all_is_well(shared, connect)


@pytest.mark.parametrize("size", [0, 1, 4096, 4097, 1 << 20, 1 << 40])
def test_a_size_that_a_file_has(served: ServerProcess, connect: Connect, size: int) -> None:
    """It is told in units of 4,096 bytes."""
    one = connect(served)
    message = one.ask(allocated(size))
    assert (message.status, message.number(104, 8)) == (Status.SUCCESS, -(-size // 4096) * 4096)


@pytest.mark.parametrize("position, expected", [
    pytest.param((1 << 63) - 1, Status.SUCCESS, id="the_last"), pytest.param(1 << 63, Status.INVALID_PARAMETER, id="below_0"),
    pytest.param((1 << 64) - 1, Status.INVALID_PARAMETER, id="minus_1"),
])
def test_a_position(shared: ServerProcess, connect: Connect, position: int, expected: Status) -> None:
    """Positions and times are numbers with a sign, and none of them is below 0 (MS-FSCC 2.4.7, 2.4.35)."""
    one = connect(shared)
    assert one.status(set_info(one.open(create("file")), POSITION, struct.pack("<Q", position))) == expected
    check_all_is_well(shared, connect)


@pytest.mark.parametrize("place", range(4), ids=["created", "accessed", "written", "changed"])
@pytest.mark.parametrize("time, expected", [
    pytest.param((1 << 64) - 1, Status.SUCCESS, id="unchanged"), pytest.param((1 << 63) - 1, Status.SUCCESS, id="the_last"),
    pytest.param((1 << 64) - 3, Status.INVALID_PARAMETER, id="minus_3"),
])
def test_a_time(shared: ServerProcess, connect: Connect, place: int, time: int, expected: Status) -> None:
    one, times = connect(shared), [0] * 4
    times[place] = time
    assert one.status(set_info(one.open(create("file")), BASIC, struct.pack("<QQQQLL", *times, 0, 0))) == expected
    check_all_is_well(shared, connect)


@pytest.mark.parametrize("offset, length, expected", [
    pytest.param((1 << 64) - 1, 1, Status.SUCCESS, id="the_last_byte"),
    pytest.param((1 << 64) - 1, 2, Status.INVALID_LOCK_RANGE, id="past_the_last_byte"),
    pytest.param((1 << 64) - 1, (1 << 64) - 1, Status.INVALID_LOCK_RANGE, id="far_past_it"),
])
def test_a_range_of_a_lock(shared: ServerProcess, connect: Connect, offset: int, length: int, expected: Status) -> None:
    one = connect(shared)
    assert one.status(lock(one.open(create("file")), offset=offset, length=length)) == expected
    check_all_is_well(shared, connect)
