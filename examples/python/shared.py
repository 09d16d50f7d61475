#!/usr/bin/env python3
"""Two client machines and a server machine share a file: plays examples/shared.txt, and prints the record of what happened.

    PYTHONPATH=python python3 examples/python/shared.py examples/shared.txt

`MachineWorld` keeps what is on its way between the machines. A program that embeds one machine sends its requests over a
connection, and passes in what comes back (docs/PYTHON.md, "Two clients share a file").
"""
import sys

from smblease import Server
from smblease.faults import ToolFault
from smblease.schedules import Schedule
from smblease.world import ClientObjects, MachineWorld


class Printer:
    def fact(self, text: str) -> None:
        print(text)

    def remark(self, text: str) -> None:
        """What is in a message isn't printed."""


def main() -> None:
    if len(sys.argv) != 2:
        sys.exit("usage: shared.py FILE")
    try:
        with open(sys.argv[1], encoding="ascii") as text:
            schedule = Schedule.read(text.read())
    except (OSError, UnicodeDecodeError, ToolFault) as fault:
        sys.exit(f"shared.py: {fault}")
    world = MachineWorld(schedule, ClientObjects(schedule), Server(schedule.files), Printer())
    for event in schedule.events:
        world.happens(event)


if __name__ == "__main__":
    main()
