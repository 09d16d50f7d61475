"""A manager compared with the plain one, by random calls."""
from __future__ import annotations

import random
from dataclasses import dataclass
from typing import Callable, Optional

from smblease import Rules
from tests.python.drawn_calls import CALLS, Drawer
from tests.python.plain_manager import PlainManager
from tests.python.proved_manager import ProvedManager
from tests.python.seen_calls import Call

# How many questions follow each call.
QUESTIONS = 3
Make = Callable[[Rules, int], PlainManager]


@dataclass(frozen=True)
class Difference:
    """Where a plain manager first differs from the proved one: after so many calls, by the last of these."""

    count: int
    files: int
    calls: tuple[Call, ...]
    plain: object
    proved: object

    def __str__(self) -> str:
        return "\n".join([f"files: {self.files}", *map(str, self.calls), f"plain: {self.plain}", f"proved: {self.proved}"])


def first_difference(chance: random.Random, count: int, rules: Optional[Rules] = None, make: Make = PlainManager
                     ) -> Optional[Difference]:
    """Of so many calls, each with some questions after it. Each manager is given a part of them."""
    for start in range(0, count, CALLS):
        drawer = Drawer(chance, rules)
        proved = ProvedManager(drawer.rules, drawer.files)
        found = _compared(drawer, make(drawer.rules, drawer.files), proved, start)
        proved.close()
        if found:
            return found
    return None


def _compared(drawer: Drawer, plain: PlainManager, proved: ProvedManager, start: int) -> Optional[Difference]:
    calls: list[Call] = []
    for number in range(start + 1, start + 1 + CALLS):
        call = drawer.call()
        calls.append(call)
        decided = call.of(proved)
        drawer.seen.note(call, decided)
        asked = [drawer.question() for _ in range(QUESTIONS)]
        for one, mine, its in [(call, call.of(plain), decided), *((it, it.of(plain), it.of(proved)) for it in asked)]:
            if mine != its:
                return Difference(number, drawer.files, (*calls, one), mine, its)
    return None
