"""A brake on wrong passwords: after some from one address none is looked at there for a while."""
from __future__ import annotations

import time
from collections.abc import Callable

from smblease import Status
from smblease.serve.status_error import StatusError

TRIES, SECONDS = 5, 60.0


class PasswordBrake:
    def __init__(self, clock: Callable[[], float] = time.monotonic) -> None:
        self._clock = clock
        self._failures: list[tuple[float, str]] = []

    def check(self, address: str) -> None:
        """Refuses a try where there were too many."""
        self._failures = [it for it in self._failures if it[0] > self._clock() - SECONDS]
        if sum(failed == address for _, failed in self._failures) >= TRIES:
            raise StatusError(Status.ACCOUNT_LOCKED_OUT)

    def failed(self, address: str) -> None:
        self._failures.append((self._clock(), address))
