"""Lines of 10 MB, and records of a million facts of each kind."""
from __future__ import annotations

from typing import Callable

import pytest

from tests.program.ran import SAFE, Ended, answered

TEN = 10_000_000
MILLION = 1_000_000
DIGITS = b"6" * TEN
STARTED = b"start 1 61\njoined 1\n"
SENT = b"start 1 61\njoined 1\nsent 1\ntook 1\n"
EMPTY = Ended(0, b"# safe\n")


def refused(line: int) -> Ended:
    return Ended(1, b"", b"fault line %d\n" % line)


def numbered(line: bytes) -> bytes:
    return b"".join(line % number for number in range(MILLION))


Text = Callable[[], bytes]
SCHEDULES: dict[str, tuple[Text, Ended]] = {
    "a remark": (lambda: b"#" + DIGITS, EMPTY), "digits": (lambda: DIGITS, refused(1)),
    "a file": (lambda: b"file " + DIGITS + b"\n", refused(1)),
    "NUL bytes": (lambda: b"\0" * TEN, refused(1)), "spaces": (lambda: b" " * TEN, refused(1)),
    "spaces at the end": (lambda: b"serve 1" + b" " * TEN, refused(1)),
    "a client number": (lambda: b"serve " + DIGITS, refused(1)), "a GUID": (lambda: b"client " + DIGITS, refused(1)),
    "line feeds": (lambda: b"\n" * TEN, EMPTY),
    "line feeds and a carriage return": (lambda: b"\n" * TEN + b"\r", refused(TEN + 1)),
    "a write": (lambda: b"write 1 1 0 " + DIGITS + b"\n", EMPTY),
    "contexts": (lambda: b"raw 1 create 1 r r " + DIGITS, EMPTY),
}
RECORDS: dict[str, tuple[Text, Ended]] = {
    "a remark": (lambda: b"#" + DIGITS, Ended(0, SAFE)), "digits": (lambda: DIGITS, refused(1)),
    "NUL bytes": (lambda: b"\0" * TEN, refused(1)),
    "Windows line ends": (lambda: b"\r\n" * (TEN // 2), refused(1)), "a file": (lambda: b"start 1 " + DIGITS, refused(1)),
    "spaces at the end": (lambda: b"joined 1" + b" " * TEN, refused(1)),
    "a client number": (lambda: b"joined " + DIGITS, refused(1)), "line feeds": (lambda: b"\n" * TEN, Ended(0, SAFE)),
    "line feeds and a letter": (lambda: b"\n" * TEN + b"x", refused(TEN + 1)),
    "a cached read": (lambda: SENT + b"cachedread 1 1 " + DIGITS, Ended(3, b"unsafe 5 2\n")),
    "a write": (lambda: SENT + b"wrote 1 1 1 0 " + DIGITS + b" through", Ended(1, b"malformed 5\n")),
    "a change": (lambda: SENT + b"changed 1 1 1 4294967295 " + DIGITS, Ended(1, b"malformed 5\n")),
    "an odd number of digits": (lambda: SENT + b"cachedread 1 1 " + DIGITS[1:], refused(5)),
}
# What is judged, and how; of what is left out the record is safe.
FACTS: dict[str, Text] = {
    "start": lambda: b"start 1 61\n" * MILLION, "joined": lambda: b"joined 1\n" * MILLION,
    "dropped": lambda: b"dropped 1\n" * MILLION,
    "expired": lambda: b"start 1 -\n" + b"expired 1 1\n" * MILLION, "sent": lambda: b"sent 1\n" * MILLION,
    "took": lambda: b"joined 1\n" + b"sent 1\n" * MILLION + b"took 1\n" * MILLION,
    "took without sent": lambda: b"took 1\n" * MILLION,
    "opened": lambda: STARTED + b"opened 1 1\n" * MILLION, "changed": lambda: STARTED + numbered(b"changed 1 1 %d 0 58\n"),
    "changed at the limit": lambda: STARTED + b"changed 1 1 1 1048575 58\n" * MILLION,
    "wrote": lambda: STARTED + numbered(b"wrote 1 1 %d 0 58 buffered\n"),
    "settled": lambda: STARTED + numbered(b"settled 1 %d lost\n"),
    "settled again": lambda: STARTED + b"settled 1 7 failed\n" * MILLION,
    "settled done": lambda: STARTED + b"settled 1 7 done\n" * MILLION,
    "believes": lambda: STARTED + b"believes 1 1 RWH\nbelieves 1 1 none\n" * (MILLION // 2),
    "believes of all clients": lambda: b"start 1 -\n" + b"".join(b"joined %d\n" % it for it in range(1, 256))
    + b"".join(b"believes %d 1 RH\n" % (it % 255 + 1) for it in range(MILLION)),
    "cachedread": lambda: STARTED + b"sent 1\ntook 1\n" + b"cachedread 1 1 61\n" * MILLION,
    "cachedread after changes": lambda: STARTED + b"changed 1 1 1 0 61\nsent 1\ntook 1\ncachedread 1 1 61\n" * (MILLION // 4),
    "strayed": lambda: b"strayed 1\n" * MILLION, "remarks": lambda: b"# strayed\n" * MILLION,
    "the last line refused": lambda: b"joined 1\n" * MILLION + b"joined",
}
NOT_SAFE = {"start": Ended(1, b"malformed 2\n"), "took without sent": Ended(1, b"malformed 1\n"),
            "settled done": Ended(3, b"unsafe 3 4\n"),
            "the last line refused": refused(1000001)}


@pytest.mark.parametrize("name", SCHEDULES)
def test_schedule_with_a_long_line(name: str) -> None:
    text_of, wanted = SCHEDULES[name]
    assert answered(["replay", "-"], text_of()) == wanted


@pytest.mark.parametrize("name", RECORDS)
def test_record_with_a_long_line(name: str) -> None:
    text_of, wanted = RECORDS[name]
    assert answered(["judge", "-"], text_of()) == wanted


@pytest.mark.parametrize("name", FACTS)
def test_a_million_facts(name: str) -> None:
    assert answered(["judge", "-"], FACTS[name]()) == NOT_SAFE.get(name, Ended(0, SAFE))
