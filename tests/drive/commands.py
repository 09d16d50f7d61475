"""Runs of the commands of drive/, with what has to be there for them."""
from __future__ import annotations

import os
import subprocess
from collections.abc import Callable, Mapping, Sequence
from pathlib import Path
from typing import Any, NamedTuple, TypeVar

from smblease.faults import ToolFault

from tests import needs
from tests.paths import TOP, built_program

Test = TypeVar("Test", bound=Callable[..., Any])
TRIES = 3
# smbd and who drives it; impacket and the clock of a private smbd are part of that.
PRIVATE_SMBD = [needs.ROOT, needs.program("smbd"), needs.program("cc"), needs.package("impacket")]


def with_private_smbd(test: Test) -> Test:
    """Marks a single test that needs one."""
    for mark in PRIVATE_SMBD:
        test = mark(test)
    return test


DEPARTURES = sorted(it.stem for it in (TOP / "drive" / "departures").iterdir())
# What was found unsafe on an unmodified smbd, with the rule that is broken.
FOUND = {"lease_outlives_its_open": 1, "write_beside_a_break_to_reads": 2, "opens_stay_when_a_break_times_out": 3,
         "late_write_after_given_back": 3}


class Ran(NamedTuple):
    status: int
    out: str
    faults: str


def ran(command: str, words: Sequence[object], seconds: float = 60, given: Path | None = None,
        environment: Mapping[str, str] | None = None) -> Ran:
    """drive/COMMAND with these words, and the program that was built from these sources; a file may be its standard input."""
    line = [str(TOP / "drive" / command), "--leasecheck", built_program(), *map(str, words)]
    with open(given or os.devnull, "rb") as stream:
        had = subprocess.run(line, stdin=stream, capture_output=True, text=True, timeout=seconds, check=False, env=environment)
    return Ran(had.returncode, had.stdout, had.stderr)


def facts_in(path: Path) -> list[str]:
    """The facts of a record that is kept."""
    return [it for it in path.read_text(encoding="ascii").splitlines() if it and not it.startswith("#")]


def tried(check: Callable[[], None]) -> None:
    """Makes a check that fails where it fails three times: smbd isn't always the same. What the first tries gave is printed."""
    for _ in range(TRIES - 1):
        try:
            check()
            return
        except (AssertionError, ToolFault) as fault:
            print(f"tried again: {fault}")
    check()
