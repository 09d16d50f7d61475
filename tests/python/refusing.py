"""Programs of the package as processes of their own, also with a library whose allocations are refused."""
from __future__ import annotations

import os
import subprocess
import sys
from collections.abc import Iterator
from dataclasses import dataclass
from pathlib import Path

from tests.paths import PACKAGES, TOP

LOST = 3
ALL_THAT_FOLLOW = 10 ** 9
LINKED = ("-Wl,--wrap=malloc", "-Wl,--wrap=realloc", "-Wl,--wrap=free", "-Wl,--whole-archive", "out/c/libsmblease.a",
          "-Wl,--no-whole-archive")
CC = os.environ.get("CC", "cc")


@dataclass(frozen=True)
class Ended:
    """What a program printed on its two streams, and its exit status."""

    status: int
    output: str
    errors: str = ""


def run(*words: str | Path, **variables: str) -> Ended:
    done = subprocess.run([sys.executable, *words], stdin=subprocess.DEVNULL, capture_output=True, text=True, check=False,
                          env={**os.environ, "PYTHONPATH": PACKAGES, **variables})
    return Ended(done.returncode, done.stdout, done.stderr)


def link_refusing(path: Path) -> None:
    """The library, linked so that its allocations can be refused by variables (tests/c/refuse_calls.c)."""
    subprocess.run([CC, "-shared", "-fPIC", "-o", path, "tests/c/refuse_calls.c", *LINKED], cwd=TOP, check=True)


def refusals(library: str, note: Path, step: int, *words: str | Path) -> Iterator[tuple[str, Ended]]:
    """How a program ends with every allocation in so many refused, alone and with all that follow; with each, what it prints
    where none is."""
    whole = run("-S", *words, SMBLEASE_LIBRARY=library, REFUSED_NOTE=str(note))
    assert (whole.status, whole.errors) == (0, "")
    for number in range(1, int(note.read_text(encoding="ascii").split()[0]) + 1, step):
        for last in (number, ALL_THAT_FOLLOW):
            variables = {"REFUSED_NOTE": str(note), "REFUSED_FROM": str(number), "REFUSED_TO": str(last)}
            yield whole.output, run("-S", *words, SMBLEASE_LIBRARY=library, **variables)
