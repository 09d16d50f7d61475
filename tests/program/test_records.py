"""Each schedule gives the record that stands by its name in tests/runs, and each record has its verdict."""
from __future__ import annotations

from pathlib import Path

import pytest

from tests.paths import RECORDS, RUNS, SCHEDULES, TESTS, name_of
from tests.program.ran import SAFE, Ended, run
from tests.program.test_transcripts import is_fault

VERDICTS = {
    "every_fact_safe": Ended(0, b"safe\n"), "two_caches_one_writes": Ended(3, b"unsafe 5 1\n"),
    "cached_read_of_other_bytes": Ended(3, b"unsafe 5 2\n"), "buffered_write_accepted_late": Ended(3, b"unsafe 5 3\n"),
    "done_without_a_change": Ended(3, b"unsafe 4 4\n"), "taken_without_a_message": Ended(1, b"malformed 4\n"),
    "number_of_a_write_twice": Ended(1, b"malformed 4\n"), "line_that_is_none": Ended(1, b"", b"fault line 4\n"),
    "expired_alone": Ended(1, b"malformed 1\n"),
}


def record_of(schedule: Path) -> Ended:
    return Ended(0, (TESTS / "runs" / schedule.name).read_bytes())


def test_each_has_its_other_half() -> None:
    assert [it.name for it in SCHEDULES] == [it.name for it in RUNS]
    assert {it.name for it in RECORDS} == set(VERDICTS)


@pytest.mark.parametrize("schedule", SCHEDULES, ids=name_of)
def test_replay(schedule: Path) -> None:
    assert run(["replay", schedule]) == record_of(schedule)


@pytest.mark.parametrize("schedule", SCHEDULES, ids=name_of)
def test_replay_of_standard_input_without_the_last_line_feed(schedule: Path) -> None:
    assert run(["replay", "-"], schedule.read_bytes()[:-1]) == record_of(schedule)


@pytest.mark.parametrize("record", RUNS, ids=name_of)
def test_what_was_replayed_is_judged_safe(record: Path) -> None:
    assert run(["judge", record]) == Ended(0, SAFE)


@pytest.mark.parametrize("record", RECORDS, ids=name_of)
def test_judge(record: Path) -> None:
    ended = run(["judge", record])
    wanted = VERDICTS[record.name]
    assert ended[:2] == wanted[:2]
    assert is_fault(ended.faults.decode(), wanted.faults.decode()), ended.faults


@pytest.mark.parametrize(("text", "status", "out", "fault"), [
    (b"took 1\n\nsent", 1, b"", b"fault line 3\n"), (b"joined 1\ntook 1", 1,
     b"malformed 2\n", b""), (b"joined 1\r\n", 1, b"", b"fault line 1\n"),
], ids=["a last line without its line feed that is refused", "a last line without its line feed", "a carriage return"])
def test_ends_of_lines(text: bytes, status: int, out: bytes, fault: bytes) -> None:
    ended = run(["judge", "-"], text)
    assert (ended.status, ended.out) == (status, out)
    assert is_fault(ended.faults.decode(), fault.decode()), ended.faults
