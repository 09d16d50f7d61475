"""Processes that drive schedules at the same time. Each has an explorer of its own, with a private server of its own, if any."""
from __future__ import annotations

import multiprocessing
import signal
from collections.abc import Generator, Sequence
from contextlib import closing, suppress
from multiprocessing.connection import Connection
from typing import Any

from smblease.drive.exploration import Explorer
from smblease.drive.explored import Row
from smblease.drive.faults import DriveFault
from smblease.drive.signals import Noted

# A run is far shorter but where it waits for a timer, and a row comes after it, and after what shrinks it.
BETWEEN_LOOKS = 1.0
ENDED = "a process that drives schedules ended before the schedules did"
CONTEXT = multiprocessing.get_context("fork")


def rows_of(explorer: Explorer, numbers: Sequence[int], count: int) -> Generator[Row, None, None]:
    """The row of each number, as it comes, by so many processes; by none but this one where that is 1."""
    if count == 1 or len(numbers) < 2:
        with closing(explorer):
            yield from map(explorer.explore, numbers)
        return
    with closing(Workers(explorer, numbers, min(count, len(numbers)))) as workers:
        for _ in numbers:
            yield workers.next_row()


class Workers:
    def __init__(self, explorer: Explorer, numbers: Sequence[int], count: int) -> None:
        self._rows, theirs = CONTEXT.Pipe(duplex=False)
        begun, sending = CONTEXT.Value("i", 0), CONTEXT.Lock()
        self._processes = [CONTEXT.Process(target=_work, args=(explorer, numbers, begun, sending, theirs)) for _ in range(count)]
        for process in self._processes:
            process.start()
        theirs.close()

    def next_row(self) -> Row:
        while not self._rows.poll(BETWEEN_LOOKS):
            if any(it.exitcode for it in self._processes) or not any(it.is_alive() for it in self._processes):
                raise DriveFault(ENDED)
        try:
            row = self._rows.recv()
        except EOFError:
            raise DriveFault(ENDED) from None
        assert isinstance(row, Row)
        return row

    def close(self) -> None:
        """Ends the processes, which end their servers."""
        for process in self._processes:
            process.terminate()
        for process in self._processes:
            process.join()
        self._rows.close()


def _work(explorer: Explorer, numbers: Sequence[int], begun: Any, sending: Any, rows: Connection) -> None:
    """Drives the next schedule that nobody has begun, until there is none. An interruption is for the process that waits."""
    signal.signal(signal.SIGINT, signal.SIG_IGN)
    with suppress(KeyboardInterrupt), closing(explorer), Noted(signal.SIGTERM) as ended:
        while not ended.came:
            with begun.get_lock():
                place = begun.value
                begun.value += 1
            if place >= len(numbers):
                return
            row = explorer.explore(numbers[place])
            with sending:
                if not ended.came:
                    rows.send(row)
