"""The manager's numbers of files."""
from __future__ import annotations

import itertools

from smblease.serve.streams import Identity

MOST_CLOSED = 65536


class FileNumbers:
    """A file has its number as long as anybody holds it, under whichever of its names, and after that until many others were
    closed."""

    def __init__(self, first: int = 1) -> None:
        self._next = itertools.count(first)
        self._held: dict[Identity, tuple[int, int]] = {}
        self._closed: dict[Identity, int] = {}

    def take(self, file: Identity) -> int:
        number, users = self._held.get(file) or (self._closed.pop(file, 0) or next(self._next), 0)
        self._held[file] = (number, users + 1)
        return number

    def give_back(self, file: Identity, is_gone: bool) -> None:
        number, users = self._held.pop(file)
        if users > 1:
            self._held[file] = (number, users - 1)
        elif not is_gone:
            self._closed[file] = number
            if len(self._closed) > MOST_CLOSED:
                del self._closed[next(iter(self._closed))]
