"""`leasecheck capture` on a text of lines."""
from __future__ import annotations

import subprocess
from typing import NamedTuple

SAFE, UNSAFE, NOTHING_JUDGED = 0, 3, 4
# (of drive/capture alone)
IN_PART = 5


class Judged(NamedTuple):
    status: int
    said: list[str]


def judged(program: str, text: str, side: str) -> Judged:
    had = subprocess.run([program, "capture", "--at", side, "-"], input=text, capture_output=True, text=True, check=False)
    assert had.stderr == ""
    return Judged(had.returncode, had.stdout.splitlines())
