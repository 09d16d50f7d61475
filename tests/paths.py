"""Where things stand in the repository."""
from __future__ import annotations

import functools
import subprocess
from pathlib import Path

TOP = Path(__file__).resolve().parent.parent
TESTS = TOP / "tests"
# Where programs that are started find the package smblease.
PACKAGES = str(TOP / "python")
EXAMPLE = TOP / "examples" / "shared.txt"


def files_of(folder: Path, pattern: str = "*") -> list[Path]:
    return sorted(it for it in folder.glob(pattern) if it.is_file())


def name_of(path: Path) -> str:
    return path.name


SCHEDULES = files_of(TESTS / "schedules")
RUNS = files_of(TESTS / "runs")
RECORDS = files_of(TESTS / "records")


@functools.lru_cache(maxsize=None)
def built_program() -> str:
    """The program as it was proved and built from these sources."""
    found = subprocess.run([TOP / "tools" / "current"], stdout=subprocess.PIPE, check=True, text=True)
    return f"{found.stdout.strip()}/leasecheck"
