"""Mistakes that are easily made over a manager of leases, each made by a small server that is reached by its address
(small_server.py): the first 50 schedules find each where the rules are expected that the manager keeps, and without that too,
since each can break a promise."""
from __future__ import annotations

from pathlib import Path

import pytest

from smblease.drive.exploration import Explorer
from smblease.drive.explored import Row
from smblease.drive.runner import Runner
from smblease.drive.servers import NamedServer
from smblease.values import Rules
from tests import needs
from tests.drive.named import named_small, place_of
from tests.drive.small_server import Mistake

pytest.importorskip("impacket", reason=f"there is no package impacket; {needs.INSTALLS}")

FIRST, SEED = 50, 1
BREAK_TIMER, BREAK_TIME = 6.0, 6.5


def first_charged(program: str, folder: Path, mistake: Mistake | None, expect: Rules | None, numbers: range) -> Row | None:
    """The first schedule by which the server is charged."""
    words = ["--mistake", mistake.name] if mistake else []
    with named_small("--break-timer", str(BREAK_TIMER), *words) as address:
        place = place_of(address)
        explorer = Explorer(Runner(program, lambda: NamedServer(place, BREAK_TIME), expect=expect), SEED, str(folder), False)
        return next((row for row in map(explorer.explore, numbers) if row.is_charged), None)


@pytest.mark.parametrize("mistake", Mistake, ids=[it.name.lower() for it in Mistake])
def test_mistake_under_rules(mistake: Mistake, program: str, tmp_path: Path) -> None:
    row = first_charged(program, tmp_path, mistake, Rules(), range(1, FIRST + 1))
    assert row is not None
    if row.is_unexpected:
        text = (tmp_path / f"{row.number}.difference").read_text(encoding="ascii")
        assert text.startswith(f"fact {row.verdict.split()[1]}, at event ") and "; expected: " in text


@pytest.mark.parametrize("mistake", Mistake, ids=[it.name.lower() for it in Mistake])
def test_mistake_that_breaks_a_promise(mistake: Mistake, program: str, tmp_path: Path) -> None:
    row = first_charged(program, tmp_path, mistake, None, range(1, FIRST + 1))
    assert row is not None and row.is_unsafe


def test_no_mistake(program: str, tmp_path: Path) -> None:
    """The same server without one isn't charged."""
    assert first_charged(program, tmp_path, None, Rules(), range(1, 9)) is None
