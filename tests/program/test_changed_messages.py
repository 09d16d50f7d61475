"""Whole messages with each byte changed, cut at each length, and parted by each NextCommand: `show` answers as of the part that
has to be read."""
from __future__ import annotations

import re
from typing import Iterator

import pytest

from tests.program.ran import BREAK, Ended, answered

pytestmark = pytest.mark.long
HEADER = bytes.fromhex("fe534d424000") + bytes(58)
LEASE = bytes.fromhex(
    "0000000010000400000018002000000052714c7300000000000102030405060708090a0b0c0d0e0f07000000000000000000000000000000")
# The fixed part, StructureSize, and where CreateContextsOffset stands, of a CREATE request and response; StructureSize of break
# messages.
CREATES = {"ask": (120, 57, 112), "reply": (152, 89, 144)}
BODIES = {"break": 44, "ack": 36, "response": 36}


def whole_messages() -> Iterator[tuple[str, bytes]]:
    """One message of each kind, its contexts behind eight bytes that stand for a name."""
    for kind, (fixed, size, at) in CREATES.items():
        area = (fixed + 8).to_bytes(4, "little") + len(LEASE).to_bytes(4, "little")
        yield kind, HEADER + size.to_bytes(2, "little") + bytes(at - 66) + area + bytes(8) + LEASE
    for kind, size in BODIES.items():
        yield kind, HEADER + bytes.fromhex(BREAK)[:size].replace(b"\x2c", bytes([size]), 1)


def fault(name: str, place: int) -> Ended:
    return Ended(1, b"", f"fault {name} at {place}\n".encode())


def wanted_of(kind: str, text: bytes) -> Ended:
    """What show has to answer of a whole message: as of the part without header, with the place counted from the header."""
    def number(at: int, count: int) -> int:
        return int.from_bytes(text[at:at + count], "little")
    following = number(20, 4)
    if len(text) < 64:
        return fault("1 Short", 0)
    if number(4, 2) != 64:
        return fault("2 WrongSize", 0)
    if following and not 64 <= following <= len(text):
        return fault("3 BadNext", 0)
    text = text[:following or len(text)]
    start, part = 64, text[64:]
    if kind in CREATES:
        fixed, size, at = CREATES[kind]
        if len(text) < fixed:
            return fault("1 Short", 64)
        if number(64, 2) != size:
            return fault("2 WrongSize", 64)
        start, count = number(at, 4), number(at + 4, 4)
        if count and not fixed <= start <= start + count <= len(text):
            return fault("5 BadData", start)
        part = text[start:start + count]
    ended = answered(["show", kind, part.hex()])
    found = re.fullmatch(rb"fault (\d \w+) at (\d+)\n", ended.faults)
    return fault(found[1].decode(), int(found[2]) + start) if found else ended


MESSAGES = dict(whole_messages())


def check(kind: str, text: bytes) -> None:
    assert answered(["show", kind, text.hex()]) == wanted_of(kind, text), text.hex()


@pytest.mark.parametrize("kind", MESSAGES)
@pytest.mark.parametrize("part", range(4))
def test_changed_byte(kind: str, part: int) -> None:
    text = MESSAGES[kind]
    for at in range(4 + part, len(text), 4):
        for byte in {0, 1, 8, 64, 255, text[at] ^ 1} - {text[at]}:
            check(kind, text[:at] + bytes((byte,)) + text[at + 1:])


@pytest.mark.parametrize("kind", MESSAGES)
def test_cut(kind: str) -> None:
    for count in range(4, len(MESSAGES[kind]) + 1):
        check(kind, MESSAGES[kind][:count])


@pytest.mark.parametrize("kind", MESSAGES)
def test_next_command(kind: str) -> None:
    text = MESSAGES[kind]
    for following in range(len(text) + 12):
        check(kind, text[:20] + following.to_bytes(4, "little") + text[24:] + bytes(9))
