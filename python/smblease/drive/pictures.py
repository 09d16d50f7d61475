"""What the program says of a record for people: its picture, and why it is unsafe."""
from __future__ import annotations

import subprocess

from smblease.drive.faults import DriveFault

SECONDS = 120


def picture_of(program: str, record: str) -> bytes:
    """The picture of a record, as SVG."""
    return _asked(program, ["draw", "-"], record)


def explanation_of(program: str, record: str) -> str:
    """The verdict, with the facts that it goes by."""
    return _asked(program, ["judge", "--explain", "-"], record).decode(errors="replace")


def version_of(program: str) -> str:
    """The program and its version, in one line."""
    return " ".join(_asked(program, ["--version"], "").decode(errors="replace").split())


def _asked(program: str, words: list[str], given: str) -> bytes:
    try:
        had = subprocess.run([program, *words], input=given.encode(), capture_output=True, timeout=SECONDS, check=False)
    except (OSError, subprocess.TimeoutExpired) as fault:
        raise DriveFault(f"{program} {words[0]}: {fault}") from None
    return had.stdout
