"""Which schedule a seed and a number stand for, and how it is chosen."""
from __future__ import annotations

import random
from collections.abc import Callable, Iterator
from dataclasses import dataclass
from functools import partial

from smblease.drive.aims import Aim, aimed_events
from smblease.drive.driver import Driver
from smblease.drive.random_schedules import Chooser, aimed_setup, blind_schedule
from smblease.schedules import Event, Schedule

# Of eight schedules four have a scene, one aims at a write during a break to reads, and three are as chance has it.
SCENES, BLIND, AIMED = (2, 3, 6, 7), (0, 4), 5
EACH = 8


@dataclass(frozen=True)
class Drawn:
    """A schedule whose events are chosen one by one, each when the ones before it have happened."""

    manner: str
    setup: Schedule
    events: Callable[[Driver], Iterator[Event]]


def own_seed(seed: int, number: int) -> str:
    """What draws a schedule by itself."""
    return f"{seed}:{number}"


def drawn(seed: int, number: int, scavenges: bool = True) -> Drawn:
    """`scavenges`: the server's timers of durable opens can be ended, so that this is drawn too."""
    chance, place = random.Random(own_seed(seed, number)), number % EACH
    if place in SCENES:
        aim = list(Aim)[(number // EACH * len(SCENES) + SCENES.index(place)) % len(Aim)]
        return Drawn(aim.value, aimed_setup(), partial(aimed_events, chance=chance, aim=aim))
    if place in BLIND:
        schedule = blind_schedule(Chooser(chance, scavenges=scavenges))
        return Drawn("blind", schedule.with_events(()), lambda driver: iter(schedule.events))
    chooser = Chooser(chance, place == AIMED, scavenges)
    return Drawn("aimed" if place == AIMED else "guided", chooser.setup(), partial(_guided, chooser))


def _guided(chooser: Chooser, driver: Driver) -> Iterator[Event]:
    return (chooser.guided(driver) for _ in range(chooser.length))
