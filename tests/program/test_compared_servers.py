"""The server of the proved code gives out and answers the same as a plain server without contracts, over each schedule and under
each of the rules that a server may choose (rust/server_comparison, which cargo builds)."""
from __future__ import annotations

import re
import subprocess
from pathlib import Path

import pytest

from smblease.schedules import Event, Schedule
from tests import needs
from tests.paths import SCHEDULES, TESTS, name_of
from tests.program.comparison import built

pytestmark = [needs.program("cargo"), pytest.mark.xdist_group("compared servers")]
RULES = ("by-client,as-free", "by-client,whole", "by-key,as-free", "by-key,whole")
SMALL_FILE = 65_536
FEW_CLIENTS = 8


def compared(schedule: Path, *words: str) -> dict[str, int]:
    """By rules, how many calls gave out the same."""
    ended = subprocess.run([built(), *words, schedule], stdout=subprocess.PIPE, text=True, timeout=60, check=False)
    same = re.compile(re.escape(str(schedule)) + r", (by-client|by-key),(as-free|whole): (\d+) calls, the same")
    found = [same.fullmatch(line) for line in ended.stdout.splitlines()]
    calls = {f"{it[1]},{it[2]}": int(it[3]) for it in found if it}
    assert ended.returncode == 0 and len(calls) == len(found) == 4, ended.stdout[:2000]
    return calls


def written_end(event: Event) -> int:
    """Where the write of an event ends, a raw one too; 0 of another event."""
    words = event.text.split(" ")
    if words[0] != "write" and words[2:3] != ["write"]:
        return 0
    offset, digits = words[-2:]
    return int(offset) + len(digits.strip("-")) // 2


def has_small_files(schedule: Path) -> bool:
    """Whether it keeps within limits that were smaller once."""
    read = Schedule.read(schedule.read_text(encoding="ascii"))
    return (len(read.clients) <= FEW_CLIENTS and all(len(it) <= SMALL_FILE for it in read.files)
            and all(written_end(it) <= SMALL_FILE for it in read.events))


def test_worked_examples_and_calls_by_numbers() -> None:
    ended = subprocess.run([built()], stdout=subprocess.PIPE, text=True, timeout=60, check=False)
    wanted = [f"{what}, {rules}: {calls} calls, the same" for rules in RULES
              for what, calls in (("worked examples", 89), ("calls by numbers", 1008))]
    assert (ended.returncode, ended.stdout.splitlines()) == (0, wanted)


@pytest.mark.parametrize("schedule", SCHEDULES, ids=name_of)
def test_both_servers_do_the_same(schedule: Path) -> None:
    """The schedule is played to its end: each connection that comes or is lost is a call."""
    record = (TESTS / "runs" / schedule.name).read_text(encoding="utf-8")
    least = sum(fact.startswith(("joined ", "dropped ")) for fact in record.split("\n"))
    assert min(compared(schedule).values()) >= least


@pytest.mark.parametrize("schedule", [it for it in SCHEDULES if has_small_files(it)], ids=name_of)
def test_a_smaller_limit_changes_nothing_within_it(schedule: Path) -> None:
    """A server whose files end at 65,536 bytes does the same where no write goes beyond."""
    assert compared(schedule, "--small-files") == compared(schedule)


def test_a_smaller_limit_is_seen_beyond_it(tmp_path: Path) -> None:
    path = tmp_path / "schedule"
    path.write_text("file -\nclient 11111111-1111-1111-1111-111111111111\nconnect 1\nopen 1 1 rw rw none\nserve 1\ntake 1\n"
                    "write 1 1 65536 00\nserve 1\n", encoding="ascii")
    assert not has_small_files(path) and compared(path)
    ended = subprocess.run([built(), "--small-files", path], stdout=subprocess.PIPE, text=True, timeout=60, check=False)
    assert ended.returncode == 1 and "WriteFailed" in ended.stdout, ended.stdout[:2000]
