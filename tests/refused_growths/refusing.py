"""Runs of a program in which growths are refused."""
from __future__ import annotations

import subprocess
import sys
from pathlib import Path
from typing import Callable, NamedTuple, Optional, Sequence

from tests.program.ran import Ended
from tests.shims import shim


class Counted(NamedTuple):
    ended: Ended
    # how many growths there were, where the run could say so
    growths: Optional[int]


# Whether a run in which a growth was refused may end so: the whole run, this one, and the number of the growth.
Fits = Callable[[Ended, Ended, int], bool]


class Refusing:
    """Runs in which growths are refused."""

    def __init__(self, folder: Path, words: Sequence[str], given: bytes = b"") -> None:
        self.folder, self.words, self.given = folder, words, given

    def run(self, first: int = 0, last: int = 0) -> Counted:
        note = self.folder / "growths"
        note.unlink(missing_ok=True)
        env = {"LD_PRELOAD": shim("refuse"), "REFUSED_FROM": str(first), "REFUSED_TO": str(last), "REFUSED_NOTE": str(note)}
        had = subprocess.run(self.words, cwd=self.folder, env=env, input=self.given, capture_output=True, timeout=60, check=False)
        growths = int(note.read_text(encoding="ascii")) if note.exists() else None
        return Counted(Ended(had.returncode, had.stdout, had.stderr), growths)

    def check(self, status: int, fits: Fits) -> None:
        whole, growths = self.run()
        assert whole.status == status and growths is not None, whole
        for number in range(1, growths + 1):
            for last in (number, sys.maxsize):
                ended, reached = self.run(number, last)
                assert reached is None or reached >= number, (number, last)
                assert fits(whole, ended, number), (number, last, ended)
        assert self.run(growths + 1, sys.maxsize).ended == whole
