"""Calls of the library from C and C++: each field of each struct, faults, and handles that hold nothing."""
from __future__ import annotations

from pathlib import Path

import pytest

from tests import needs
from tests.c.building import CXX, STRICT, Ended, made, program, run
from tests.paths import TOP

KEY = "000102030405060708090a0b0c0d0e0f"
NOTIFICATION = f"2c00000001000000{KEY}0700000003000000000000000000000000000000"
ACKNOWLEDGMENT = f"2400000000000000{KEY}030000000000000000000000\n"
LEASE = f"10000400000018002000000052714c7300000000{KEY}07000000000000000000000000000000"
CONTEXT = "context 52714c73 32\nlease 00010203-0405-0607-0809-0a0b0c0d0e0f RWH\n"


def test_make() -> None:
    assert made().status == 0, made()
    assert run("out/c/leasecheck", "--help").status == 0


# `fields`, `machine_fields` and `manager` have each field of each struct, `messages` rooms, faults and odd numbers, `appended`
# contexts that are appended one by one, `states` states and conflicts of opens, `nothing` and `manager` handles that hold
# nothing, and `long_reads` answers to reads of more than 64 KiB.
@pytest.mark.parametrize("name", ["fields", "machine_fields", "manager", "messages", "appended", "states", "nothing",
                                  "long_reads"])
def test_program(folder: Path, name: str) -> None:
    """Each prints what is wrong."""
    assert run(program(folder, f"tests/c/{name}.c")) == Ended(0, "")


@needs.program(CXX)
def test_a_text_of_no_bytes_in_cxx(folder: Path) -> None:
    out = folder / "nothing_in_cxx"
    linked = run(CXX, "-std=c++11", *STRICT, "-Iinclude", "-o", out, "tests/c/nothing.cpp", "-Lout/c", "-lsmblease",
                 f"-Wl,-rpath,{TOP}/out/c")
    assert linked == Ended(0, "")
    assert run(out) == Ended(0, "")


@pytest.mark.parametrize("given, expected", [
    pytest.param(NOTIFICATION, Ended(0, ACKNOWLEDGMENT), id="acknowledgment"),
    pytest.param(f"{NOTIFICATION}00", Ended(0, f"{ACKNOWLEDGMENT}rest 1\n"), id="bytes_after_a_notification"),
    pytest.param(NOTIFICATION.replace("2c00000001", "2c00000000"), Ended(0, "no acknowledgment due\n"), id="none_due"),
    pytest.param("2c00", Ended(1, "", "fault 1 Short at 0\n"), id="short"),
    pytest.param(f"2d{NOTIFICATION[2:]}", Ended(1, "", "fault 2 WrongSize at 0\n"), id="another_size"),
    pytest.param("2c0", Ended(1, "", "fault hex\n"), id="no_digits"),
])
def test_acknowledgment(ack: Path, given: str, expected: Ended) -> None:
    assert run(ack, given) == expected


def test_a_request_is_shown(show: Path) -> None:
    assert run(show, "ask", f"00000000{LEASE}") == Ended(0, CONTEXT)
