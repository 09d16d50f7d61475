"""Prints what random calls of a manager give, by the library that SMBLEASE_LIBRARY names.

    python3 -m tests.plain.manager_calls SEED CALLS
"""
from __future__ import annotations

import random
import sys

from tests.python.drawn_calls import CALLS, Drawer
from tests.python.proved_manager import ProvedManager


def print_calls(drawer: Drawer, manager: ProvedManager) -> None:
    """A line for each call of one manager, with what it answers to some questions then."""
    for _ in range(CALLS):
        call = drawer.call()
        given = call.of(manager)
        drawer.seen.note(call, given)
        print(given, drawer.question().of(manager), drawer.question().of(manager))


def main(words: list[str]) -> None:
    seed, calls = words
    chance = random.Random(seed)
    for _ in range(0, int(calls), CALLS):
        drawer = Drawer(chance)
        manager = ProvedManager(drawer.rules, drawer.files)
        print_calls(drawer, manager)
        manager.close()


if __name__ == "__main__":
    main(sys.argv[1:])
