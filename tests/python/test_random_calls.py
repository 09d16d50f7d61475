"""The manager of leases compared with a plain one by random calls, and mistakes that the comparison sees.

What no call can reach is the last FileId, and what is refused past it.
"""
from __future__ import annotations

import random

import pytest

from smblease import Rules
from tests.python.compared import first_difference
from tests.python.drawn_calls import ALL_RULES
from tests.python.plain_manager import PlainManager
from tests.python.plain_mistakes import MISTAKES

CALLS = 5_000
PARTS, CALLS_OF_A_PART = 20, 25_000
# A mistake is seen within so many calls, which are the same each time; most are within some hundreds.
CALLS_OF_A_MISTAKE = 50_000


@pytest.mark.parametrize("rules", ALL_RULES, ids=str)
def test_random_calls(rules: Rules, chooser: random.Random) -> None:
    found = first_difference(chooser, CALLS, rules)
    assert found is None, f"\n{found}"


@pytest.mark.long
@pytest.mark.parametrize("rules", ALL_RULES, ids=str)
@pytest.mark.parametrize("part", range(PARTS))
def test_many_random_calls(part: int, rules: Rules, chooser: random.Random) -> None:
    found = first_difference(chooser, CALLS_OF_A_PART, rules)
    assert found is None, f"part {part}\n{found}"


@pytest.mark.parametrize("mistake", MISTAKES, ids=[it.__name__ for it in MISTAKES])
def test_mistake_is_seen(mistake: type[PlainManager]) -> None:
    assert first_difference(random.Random(mistake.__name__), CALLS_OF_A_MISTAKE, make=mistake) is not None
