#!/usr/bin/env python3
"""Plays a schedule (docs/FORMATS.md) through the machines of the package smblease, and prints the record of what happened, as
`leasecheck replay` does but for its last line. A call that there was no memory for changed nothing, and is made once more.

    play.py FILE      status 0; 1 where FILE can't be read or isn't a schedule; 2 for a command line that is none; 3 where memory
                      ran out and a machine was lost (the record ends there); 4 where there was no memory at a second try either
"""
from __future__ import annotations

import sys
from collections.abc import Callable
from typing import TypeVar

from smblease import MachineLost, Server
from smblease.faults import ToolFault
from smblease.schedules import Event, Schedule
from smblease.world import ClientObjects, MachineWorld

Given = TypeVar("Given")


def twice(call: Callable[[], Given]) -> Given:
    """What a call gives at its first try or at its second."""
    try:
        return call()
    except MemoryError:
        return call()


class Printer:
    """Prints the facts, and no remarks."""

    def fact(self, text: str) -> None:
        """A fact of the record."""
        print(text)

    def remark(self, text: str) -> None:
        """What a message has in it."""


class PatientWorld(MachineWorld):
    """A run in which each call is tried twice."""

    def __init__(self, schedule: Schedule) -> None:
        super().__init__(schedule, twice(lambda: ClientObjects(schedule)), twice(lambda: Server(schedule.files)), Printer())

    def _called(self, call: Callable[[], Given]) -> Given:
        return twice(call)


def refuse(status: int, why: object) -> int:
    """Says why, and answers the status."""
    sys.stdout.flush()
    print(f"play: {why}", file=sys.stderr)
    return status


def try_to_happen(world: PatientWorld, event: Event) -> None:
    """Has an event happen, where it is laid out as one."""
    try:
        world.happens(event)
    except (LookupError, ValueError):
        raise ToolFault(f"{event.text} is no event") from None


def play(schedule: Schedule) -> int:
    """Plays a schedule; the status."""
    try:
        world = PatientWorld(schedule)
        for event in schedule.events:
            try_to_happen(world, event)
    except ToolFault as fault:
        return refuse(1, fault)
    except MachineLost as lost:
        return refuse(3, lost)
    except MemoryError as error:
        return refuse(4, error)
    return 0


def main() -> int:
    """Plays the schedule of the command line; the status."""
    if len(sys.argv) != 2:
        return refuse(2, "FILE is needed")
    try:
        with open(sys.argv[1], encoding="ascii", errors="surrogateescape") as text:
            schedule = Schedule.read(text.read())
    except (OSError, ToolFault) as error:
        return refuse(1, error)
    return play(schedule)


if __name__ == "__main__":
    sys.exit(main())
