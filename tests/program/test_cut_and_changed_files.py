"""Each prefix of a schedule or record, and each of its bytes changed to several others: it is read, or refused at the right
line."""
from __future__ import annotations

import re
from pathlib import Path
from typing import Optional

import pytest

from tests.paths import RECORDS, SCHEDULES, name_of
from tests.program.ran import SAFE, VERDICT, Ended, answered

pytestmark = pytest.mark.long
PARTS = 8
CHANGED = [it for it in (*SCHEDULES, *RECORDS) if it.name in (
    "break_answered", "raw_requests", "every_fact_safe", "buffered_write_accepted_late", "two_caches_one_writes")]


def refused_line(ended: Ended) -> Optional[int]:
    line = re.fullmatch(rb"fault line ([0-9]+)\n", ended.faults)
    return int(line[1]) if line else None


def replayed(text: bytes) -> Ended:
    """What is accepted gives a safe record."""
    ended = answered(["replay", "-"], text)
    assert ended.faults or (ended.status == 0 and ended.out.endswith(b"# safe\n")), (text, ended)
    return ended


def judged(text: bytes) -> Ended:
    """A verdict names a fact of the record."""
    ended = answered(["judge", "-"], text)
    facts = sum(1 for line in text.split(b"\n") if line and not line.startswith(b"#"))
    verdict = VERDICT.fullmatch(ended.out)
    assert ended.faults or verdict, (text, ended)
    assert all(1 <= int(it) <= facts for it in (verdict.groups() if verdict else ()) if it), (text, ended)
    return ended


@pytest.mark.parametrize("path", SCHEDULES, ids=name_of)
def test_prefixes_of_a_schedule(path: Path) -> None:
    """A prefix is refused at its last line alone."""
    text = path.read_bytes()
    for count in range(len(text) + 1):
        ended = replayed(text[:count])
        assert not ended.faults or refused_line(ended) == text.count(b"\n", 0, count) + 1, (count, ended)


@pytest.mark.parametrize("path", [it for it in RECORDS if it.name != "line_that_is_none"], ids=name_of)
def test_prefixes_of_a_record(path: Path) -> None:
    text = path.read_bytes()
    for count in range(len(text) + 1):
        ended = judged(text[:count])
        assert not ended.faults or refused_line(ended) in (None, text.count(b"\n", 0, count) + 1), (count, ended)


def changes(text: bytes, part: int) -> list[bytes]:
    """The text with one byte changed; of a long text each fifth such change."""
    places = [(at, new) for at, old in enumerate(text)
              for new in sorted({0, 10, 13, 32, 48, 50, 0xFF, old ^ 1, old ^ 32, (old + 1) % 256} - {old})]
    chosen = places if len(text) < 1000 else places[::5]
    return [text[:at] + bytes((new,)) + text[at + 1:] for at, new in chosen[part::PARTS]]


@pytest.mark.parametrize("part", range(PARTS))
@pytest.mark.parametrize("path", CHANGED, ids=name_of)
def test_changed_bytes(path: Path, part: int) -> None:
    for text in changes(path.read_bytes(), part):
        ended = (judged if path in RECORDS else replayed)(text)
        assert (refused_line(ended) or 1) <= text.count(b"\n") + 1, (text, ended)
        if path in SCHEDULES and not ended.faults:
            assert answered(["judge", "-"], ended.out) == Ended(0, SAFE), text
