"""Two programs in C and `leasecheck` say the same of damaged texts, on both streams and by their status."""
# pylint: disable=no-value-for-parameter  # hypothesis passes what pylint misses
from __future__ import annotations

from pathlib import Path
from typing import Any

import pytest
from hypothesis import HealthCheck, given, settings
from hypothesis import strategies as some

from tests.c.building import LEASECHECK, Ended, run

KEY = bytes(range(16))
# Small numbers in the places of headers lead to other faults than random ones.
PLACES = (0, 8, 12, 16, 24, 40, 56, 64)


def number(value: int, size: int) -> bytes:
    return value.to_bytes(size, "little")


def context(name: bytes, data: bytes, more: bool) -> bytes:
    padding = -len(data) % 8 if more else 0
    length = 24 + len(data) + padding
    return (number(length if more else 0, 4) + number(16, 2) + number(4, 2) + number(0, 2) + number(24, 2)
            + number(len(data), 4) + name + bytes(4) + data + bytes(padding))


@some.composite
def contexts(draw: Any, durable_size: int) -> bytes:
    """Contexts in some order: mostly each once, and of the length that they should have."""
    states, flags = draw(some.integers(0, 7)), draw(some.integers(0, 3))
    known = [
        (b"RqLs", KEY + number(states, 4) + number(flags, 4) + bytes(8)),
        (b"DHnQ", bytes(draw(some.sampled_from([durable_size] * 8 + [0, 8, 16, 24])))),
        (b"DHnC", number(draw(some.integers(0, (1 << 64) - 1)), 8) + bytes(8)), (b"MxAc", b""), (b"RqLs", KEY + bytes(36)),
    ]
    is_each_once = draw(some.sampled_from([True] * 3 + [False]))
    chosen = draw(some.lists(some.sampled_from(known), min_size=1, max_size=4, unique=is_each_once))
    return b"".join(context(name, data, place < len(chosen)) for place, (name, data) in enumerate(chosen, 1))


@some.composite
def break_message(draw: Any) -> bytes:
    flags, current, new = draw(some.integers(0, 1)), draw(some.integers(0, 7)), draw(some.integers(0, 7))
    return number(44, 2) + number(0, 2) + number(flags, 4) + KEY + number(current, 4) + number(new, 4) + bytes(12)


@some.composite
def acknowledgment(draw: Any) -> bytes:
    return number(36, 2) + bytes(6) + KEY + number(draw(some.integers(0, 7)), 4) + bytes(8)


MESSAGES = {"acknowledge": break_message(), "break": break_message(), "ask": contexts(16), "reply": contexts(8),
            "ack": acknowledgment(), "response": acknowledgment()}


@some.composite
def damaged(draw: Any, message: Any) -> bytes:
    """Up to three of: a byte or a bit changed, bytes lost or added, the end cut off, a small number put in."""
    text = bytearray(draw(message))
    for _ in range(draw(some.integers(0, 3))):
        harm, place = draw(some.integers(0, 5)), draw(some.integers(0, max(0, len(text) - 1)))
        if harm == 0:
            text[place:place + 1] = number(draw(some.integers(0, 255)), 1)
        elif harm == 1 and text:
            text[place] ^= 1 << draw(some.integers(0, 7))
        elif harm == 2:
            del text[place:place + draw(some.sampled_from([1, 8, 16]))]
        elif harm == 3:
            text[place:place] = draw(some.binary(min_size=1, max_size=24))
        elif harm == 4:
            del text[place:]
        else:
            place -= place % 4
            text[place:place + 4] = number(draw(some.sampled_from(PLACES)), 4)
    return bytes(text) or b"\0"


def first_line_of_errors(done: Ended) -> Ended:
    """The second line of `leasecheck`, on what was expected where, is no answer of the library's."""
    return Ended(done.status, done.output, done.errors[:done.errors.find("\n") + 1])


@pytest.mark.parametrize("count", [40, pytest.param(340, marks=pytest.mark.long)])
@pytest.mark.parametrize("kind", MESSAGES)
def test_damaged_texts(ack: Path, show: Path, kind: str, count: int) -> None:
    """The texts are derived from the test alone, and so they are the same each time."""
    @settings(max_examples=count, derandomize=True, deadline=None, database=None,
              suppress_health_check=list(HealthCheck))
    @given(damaged(MESSAGES[kind]))
    def same(text: bytes) -> None:
        words: list[str | Path] = [ack, text.hex()] if kind == "acknowledge" else [show, kind, text.hex()]
        expected = ["ack", text.hex()] if kind == "acknowledge" else ["show", kind, text.hex()]
        assert first_line_of_errors(run(*words)) == first_line_of_errors(run(LEASECHECK, *expected))
    same()


@pytest.mark.parametrize("digits", ["0", "0g", "2C00 ", "2C0G", "2CAA", f"{KEY.hex().upper()}g "])
def test_digits_that_are_none(ack: Path, digits: str) -> None:
    assert first_line_of_errors(run(ack, digits)) == first_line_of_errors(run(LEASECHECK, "ack", digits))
