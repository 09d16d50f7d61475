"""What clients are shown of files where all of it comes from a seed."""
from __future__ import annotations

import itertools
import os
from collections.abc import Callable
from dataclasses import dataclass

from smblease.serve.streams import Identity
from smblease.serve.shown_files import ShownFiles


@dataclass
class Times:
    """In nanoseconds since 1970."""

    accessed: int
    written: int
    changed: int


class SeededFiles(ShownFiles):
    """Numbers count up in the order in which files are shown. Times are those of a clock, for what was changed here; for
    other files the time of the last change of their bytes, and for what was made since `begun` that of the beginning."""

    def __init__(self, clock: Callable[[], int], beginning: int, begun: int) -> None:
        self._clock, self._beginning, self._begun = clock, beginning, begun
        self._next = itertools.count(1)
        self._numbers: dict[Identity, int] = {}
        self._times: dict[Identity, Times] = {}

    def shown(self, found: os.stat_result) -> os.stat_result:
        file = found.st_dev, found.st_ino
        if file not in self._numbers:
            self._numbers[file] = next(self._next)
            self._times[file] = self._before(found)
        times = self._times[file]
        fixed = (found.st_mode, self._numbers[file], 1, found.st_nlink, found.st_uid, found.st_gid, found.st_size, 0, 0, 0)
        return os.stat_result(fixed, {"st_atime_ns": times.accessed, "st_mtime_ns": times.written, "st_ctime_ns": times.changed})

    def _before(self, found: os.stat_result) -> Times:
        time = found.st_mtime_ns if found.st_mtime_ns < self._begun else self._beginning
        return Times(time, time, time)

    def made(self, file: Identity) -> None:
        time = self._clock()
        self._numbers[file], self._times[file] = next(self._next), Times(time, time, time)

    def changed(self, file: Identity) -> None:
        time = self._clock()
        self._times[file] = Times(self._times[file].accessed if file in self._times else time, time, time)

    def names_changed(self, folder: Callable[[], Identity | None]) -> None:
        file = folder()
        if file:
            self.changed(file)

    def times_set(self, file: Identity, accessed: int | None, written: int | None) -> None:
        time = self._clock()
        before = self._times.get(file) or Times(time, time, time)
        self._times[file] = Times(before.accessed if accessed is None else accessed,
                                  before.written if written is None else written, time)
