"""What these tests have from drive/: a run of a schedule against a server, and random schedules."""
from __future__ import annotations

import random
from collections.abc import Callable
from typing import Any

from smblease.drive.explanations import is_replayed
from smblease.drive.random_schedules import Chooser, blind_schedule
from smblease.drive.runner import Runner
from smblease.program import replay
from smblease.schedules import Schedule


def facts_and_replay(program: str, server: Callable[[], Any], schedule: Schedule) -> tuple[bool, list[str], list[str]]:
    """The facts of a run and those of `replay`, and whether within each step those of each client are the same, in order."""
    outcome = Runner(program, server).run(schedule)
    facts, expected = outcome.record.facts(), replay(program, schedule.text)
    return is_replayed(facts, expected, outcome.counts), facts, expected


def random_schedule(chance: random.Random) -> Schedule:
    return blind_schedule(Chooser(chance))
