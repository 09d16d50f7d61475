"""What neither clients nor files say: random bytes, and what time it is. From a seed both are the same in each run."""
from __future__ import annotations

import os
import random
import secrets
import time

from smblease.serve.seeded_files import SeededFiles
from smblease.serve.times import now, of_disk
from smblease.serve.shown_files import ON_DISK, ShownFiles

# 2030-01-01, 00:00:00 UTC, in nanoseconds since 1970, so that what changes is later than what was there; and each look at the
# clock finds it a millisecond on.
BEGINNING, STEP = 1893456000 * 10**9, 10**6


class Chance:
    """That of the system."""

    def number(self) -> int:
        return secrets.randbits(64)

    def take(self, length: int) -> bytes:
        return os.urandom(length)

    def now(self) -> int:
        return now()

    def files(self) -> ShownFiles:
        return ON_DISK


class SeededChance(Chance):
    """For tests: who knows the seed knows it all."""

    def __init__(self, seed: int) -> None:
        self._drawn = random.Random(seed)
        self._clock = BEGINNING - STEP
        self._begun = time.time_ns()

    def number(self) -> int:
        return self._drawn.getrandbits(64)

    def take(self, length: int) -> bytes:
        return self._drawn.getrandbits(8 * length).to_bytes(length, "little")

    def now(self) -> int:
        return of_disk(self._tick())

    def files(self) -> ShownFiles:
        return SeededFiles(self._tick, BEGINNING, self._begun)

    def _tick(self) -> int:
        self._clock += STEP
        return self._clock
