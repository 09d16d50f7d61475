"""Client and server objects play schedules (play.py), also while memory runs out."""
from __future__ import annotations

import functools
import subprocess
from collections import Counter
from pathlib import Path

import pytest

from tests import needs
from tests.paths import EXAMPLE, RUNS, SCHEDULES, TESTS, TOP, built_program
from tests.python import lost_machines
from tests.python.refusing import CC, LOST, Ended, refusals, run

PLAY = TESTS / "python/play.py"
TWICE_NO_MEMORY = 4
KEPT_OPEN_BROKEN = TESTS / "schedules/kept_open_broken"


@functools.lru_cache(maxsize=None)
def replayed(schedule: Path) -> str:
    """The record that `leasecheck replay` prints of a schedule, without its verdict."""
    done = subprocess.run([built_program(), "replay", schedule], capture_output=True, text=True, check=True)
    assert done.stdout.endswith("# safe\n")
    return done.stdout.removesuffix("# safe\n")


@pytest.mark.parametrize("schedule", [pytest.param(it, id=it.name) for it in (EXAMPLE, *SCHEDULES)])
def test_play(schedule: Path) -> None:
    assert run(PLAY, schedule) == Ended(0, replayed(schedule))


@pytest.mark.parametrize("words, status, beginning", [
    pytest.param([], 2, "play: ", id="no_file"), pytest.param(["/nowhere"], 1, "play: ", id="a_file_that_is_not_there"),
    pytest.param([RUNS[0]], 1, "play: fault line 1", id="a_record"),
])
def test_play_is_refused(words: list[str | Path], status: int, beginning: str) -> None:
    done = run(PLAY, *words)
    assert (done.status, done.output, done.errors.count("\n"), done.errors[:len(beginning)]) == (status, "", 1, beginning)


@pytest.mark.parametrize("schedule, step", [
    pytest.param(EXAMPLE, 6, id="every_sixth_of_shared"),
    pytest.param(EXAMPLE, 1, id="shared", marks=pytest.mark.long),
    pytest.param(KEPT_OPEN_BROKEN, 1, id="kept_open_broken", marks=pytest.mark.long),
])
def test_each_allocation_refused(library: str, tmp_path: Path, schedule: Path, step: int) -> None:
    """Each is refused alone, and with all that follow: the record is whole, or it ends where a machine is lost, which is said; or
    there was no memory at a second try either."""
    ends = Counter[int]()
    for whole, done in refusals(library, tmp_path / "calls", step, PLAY, schedule):
        assert whole == replayed(schedule)
        ends[done.status] += 1
        if done.status == 0:
            assert done == Ended(0, whole)
        else:
            said = {LOST: "is lost", TWICE_NO_MEMORY: "there is no memory"}.get(done.status, "a status of its own")
            assert said in done.errors and done.errors.startswith("play: "), done
            assert done.errors.count("\n") == 1 and whole.startswith(done.output), done
    assert ends[LOST] and sum(ends.values()) > ends[LOST], ends


@needs.program(CC)
@pytest.mark.parametrize("name", lost_machines.CASES)
def test_a_lost_machine(library: str, name: str) -> None:
    """What is left of an object is looked at in a process of its own, with the library that refuses."""
    assert run("-m", "tests.python.lost_machines", name, SMBLEASE_LIBRARY=library,
               PYTHONPATH=f"{TOP}:{TOP}/python") == Ended(0, "")
