"""The machines' handles from C: schedules that are played, also while memory runs out."""
from __future__ import annotations

from collections import Counter
from pathlib import Path

import pytest

from tests.c.building import Ended, replayed, run
from tests.paths import EXAMPLE, SCHEDULES

PLAYED = [pytest.param(it, id=it.name) for it in (EXAMPLE, *SCHEDULES)]
LOST, TWICE_NO_MEMORY = 3, 4
ALL_THAT_FOLLOW = 10 ** 9
# Of these schedules each allocation is refused in a short run too.
SHORT = {"shared.txt", "nothing_happens", "kept_open_broken", "cut_in_a_flush"}


@pytest.mark.parametrize("schedule", PLAYED)
def test_play(play: Path, schedule: Path) -> None:
    assert run(play, schedule) == Ended(0, replayed(schedule))


def test_the_example_is_played(shared: Path) -> None:
    assert run(shared, EXAMPLE) == Ended(0, replayed(EXAMPLE))


@pytest.mark.parametrize("words", [[], ["/nowhere"]], ids=["no_file", "a_file_that_is_not_there"])
def test_the_example_without_a_schedule(shared: Path, words: list[str]) -> None:
    assert run(shared, *words) == Ended(2, "", "usage: shared FILE (a schedule that can be read)\n")


@pytest.mark.parametrize("schedule", [pytest.param(it, id=it.name, marks=[] if it.name in SHORT else [pytest.mark.long])
                                      for it in [EXAMPLE, *SCHEDULES]])
def test_each_allocation_refused(play_with_refusals: Path, tmp_path: Path, schedule: Path) -> None:
    """Each is refused alone, and with all that follow. The record is whole; or a machine is lost, which the program is told and
    at which the record ends; or there is no memory at a second try either. Whatever happens, all memory is freed, that of a lost
    machine too."""
    whole, note, ends = replayed(schedule), tmp_path / "calls", Counter[int]()
    assert run(play_with_refusals, schedule, variables={"REFUSED_NOTE": str(note)}) == Ended(0, whole)
    calls, held = map(int, note.read_text(encoding="ascii").split())
    assert calls and not held
    for number in range(1, calls + 1):
        for last in (number, ALL_THAT_FOLLOW):
            variables = {"REFUSED_FROM": str(number), "REFUSED_TO": str(last), "REFUSED_NOTE": str(note)}
            done = run(play_with_refusals, schedule, variables=variables)
            ends[done.status] += 1
            assert note.read_text(encoding="ascii").split()[1] == "0", (number, last)
            if done.status == 0:
                assert done.output == whole, (number, last)
            else:
                assert done.status in (LOST, TWICE_NO_MEMORY), (number, last, done)
                assert whole.startswith(done.output) and done.errors.startswith("play: "), (number, last, done)
    assert ends[TWICE_NO_MEMORY] or ends[LOST], ends
