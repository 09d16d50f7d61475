"""How many schedules are driven at a time, by whichever processes."""
from __future__ import annotations

import multiprocessing
from collections.abc import Iterator
from contextlib import contextmanager


class Slots:
    """A run takes one, and lends it to another run while it waits for a timer."""

    def __init__(self, count: int = 1) -> None:
        self._free = multiprocessing.get_context("fork").Semaphore(count)

    @contextmanager
    def taken(self) -> Iterator[None]:
        with self._free:
            yield

    @contextmanager
    def lent(self) -> Iterator[None]:
        self._free.release()
        try:
            yield
        finally:
            self._free.acquire()
