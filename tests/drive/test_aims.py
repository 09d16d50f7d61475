"""Schedules that aim, on a server machine in place of a server: what each has by construction, and which faults it shows."""
from __future__ import annotations

import random
from collections import Counter
from typing import Any

import pytest

from smblease import Server
from smblease.drive.aims import Aim, aimed_events
from smblease.drive.drawing import drawn
from smblease.drive.expectation import Facts
from smblease.drive.random_schedules import aimed_setup
from smblease.program import judge
from smblease.world import ClientObjects, MachineWorld
from tests.drive.faulty_servers import BreaksNothing

SEEDS = range(12)


def facts_of(aim: Aim, seed: int, server: Any) -> list[str]:
    """The facts of a schedule that aims so, on this server."""
    schedule, record = aimed_setup(), Facts()
    world = MachineWorld(schedule, ClientObjects(schedule), server(list(schedule.files)), record)
    for event in aimed_events(world, random.Random(seed), aim):
        world.happens(event)
    return record.facts


def kinds_of(facts: list[str]) -> Counter[str]:
    return Counter(it.split(" ")[0] for it in facts)


@pytest.mark.parametrize("aim", Aim, ids=[it.value for it in Aim])
@pytest.mark.parametrize("seed", SEEDS)
def test_what_a_schedule_has(aim: Aim, seed: int, program: str) -> None:
    """A lease is held while another client changes the file or opens it; the proved server is safe."""
    facts = facts_of(aim, seed, Server)
    kinds = kinds_of(facts)
    assert kinds["believes"] and kinds["opened"] >= 2 and (kinds["changed"] or aim is Aim.HELD_WRITE)
    assert aim is not Aim.LATE_ACKNOWLEDGMENT or kinds["expired"]
    assert aim is not Aim.LOST_CONNECTION or kinds["dropped"]
    assert judge(program, "".join(f"{it}\n" for it in facts)).is_safe


def test_schedules_differ() -> None:
    assert len({tuple(facts_of(Aim.CACHED_READ, seed, Server)) for seed in SEEDS}) == len(SEEDS)


@pytest.mark.parametrize("aim", [Aim.CACHED_READ, Aim.SECOND_OPEN], ids=["cached_read", "second_open"])
def test_server_that_breaks_nothing(aim: Aim, program: str) -> None:
    """Most schedules that aim at a stale read find one, each by itself."""
    found = [judge(program, "".join(f"{it}\n" for it in facts_of(aim, seed, BreaksNothing))) for seed in SEEDS]
    assert sum(it.rule is not None for it in found) > len(SEEDS) // 2


def test_half_of_all_aim() -> None:
    """Of the first 40 there are four of each aim; the others are as chance has it."""
    manners = Counter(drawn(1, number).manner for number in range(1, 41))
    assert manners == {**{it.value: 4 for it in Aim}, "blind": 10, "aimed": 5, "guided": 5}
