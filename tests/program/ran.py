"""A run of the program, and how it ended."""
from __future__ import annotations

import re
import subprocess
from typing import Mapping, NamedTuple, Optional, Sequence

from tests.paths import built_program

BREAK = "2c00000001000000000102030405060708090a0b0c0d0e0f0700000003000000000000000000000000000000"
ACKNOWLEDGMENT = "2400000000000000000102030405060708090a0b0c0d0e0f030000000000000000000000"
SAFE = b"safe\n"
FAULT = re.compile(rb"fault (hex|file|memory|output|line [1-9][0-9]*|run (1 BadSetup|2 TooMany)|[1-7] \w+ at [0-9]+)\n")
VERDICT = re.compile(rb"(?:safe|unsafe ([1-9][0-9]*) [1-4]|malformed ([1-9][0-9]*))\n")
# Faults that a second line says more of, and that line.
EXPLAINED = re.compile(rb"fault (hex|file|line|run|[1-7])")
SECOND = re.compile(rb"[ -~]{10,500}\n")


UNREADABLE = "it can't be read"


class Ended(NamedTuple):
    status: int
    out: bytes = b""
    faults: bytes = b""


def unread(path: object, why: str = UNREADABLE) -> Ended:
    """A run that couldn't read this file."""
    return Ended(1, b"", f'fault file\nFILE, "{path}": {why}\n'.encode())


def run(words: Sequence[object], given: bytes = b"", env: Optional[Mapping[str, str]] = None, program: str = "") -> Ended:
    """A run with these words and this standard input, in an environment of these variables alone."""
    command = [program or built_program(), *map(str, words)]
    had = subprocess.run(command, input=given, env=dict(env or {}), capture_output=True, timeout=120, check=False)
    return Ended(had.returncode, had.stdout, had.stderr)


def answered(words: Sequence[object], given: bytes = b"", env: Optional[Mapping[str, str]] = None) -> Ended:
    """The same, of whose fault the first line alone is kept; no run may do what `is_odd` finds."""
    ended = run(words, given, env)
    ended = ended._replace(faults=first_line(ended.faults))
    assert not why_odd(ended), (words, given[:300], ended)
    return ended


def first_line(faults: bytes) -> bytes:
    """The line of a fault without the second line, where that fault has one."""
    first, end, second = faults.partition(b"\n")
    if not FAULT.fullmatch(first + end) or not EXPLAINED.match(first):
        return faults
    number = re.fullmatch(rb"fault (line [0-9]+)", first)
    assert SECOND.fullmatch(second), faults[:600]
    assert not number or second.startswith((number[1] + b", ", number[1] + b": ")), faults[:600]
    return first + end


def why_odd(ended: Ended) -> str:
    """What no run may do, whatever it is given; nothing where it does none of it."""
    if ended.status not in (0, 1, 2, 3):
        return "another status"
    if ended.faults and (ended.out or ended.status not in (1, 2)):
        return "a fault and an answer"
    if ended.status == 1 and not VERDICT.fullmatch(ended.out) and not FAULT.fullmatch(ended.faults):
        return "neither a verdict nor a line of a fault"
    return ""
