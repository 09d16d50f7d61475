"""The names of folders by their letters without case, so that a name isn't looked for among thousands each time."""
from __future__ import annotations

import os
from collections.abc import Iterator, Sequence
from contextlib import contextmanager
from dataclasses import dataclass, field

from smblease.serve.names import folded, sent_name

FOLDER = os.O_RDONLY | os.O_DIRECTORY | os.O_NOFOLLOW | os.O_CLOEXEC
MOST_NAMES = 500000


def names_in(folder: int) -> list[bytes]:
    """Each name in a folder, whoever else lists it."""
    opened = os.open(".", FOLDER, dir_fd=folder)
    try:
        return [os.fsencode(it) for it in os.listdir(opened)]
    finally:
        os.close(opened)


@dataclass(eq=False)
class Known:
    """Names as they were when the folder was changed last."""

    changed: int
    names: dict[str, list[str]] = field(default_factory=dict)
    count: int = 0

    def add(self, name: str) -> None:
        alike = self.names.setdefault(folded(name), [])
        if name not in alike:
            alike.append(name)
            self.count += 1

    def remove(self, name: str) -> None:
        alike = self.names.get(folded(name), [])
        if name in alike:
            alike.remove(name)
            self.count -= 1


class FolderNames:
    """What is known of a folder counts as long as the time of its last change is the same, and what is changed here is noted. A
    name that another program makes in just the moment of such a change is found by its own letters alone, until the next one.
    The folders that were asked for last are known, with so many names in all."""

    def __init__(self, most: int = MOST_NAMES) -> None:
        self._most = most
        self._known: dict[tuple[int, int], Known] = {}
        self._count = 0

    def alike(self, folder: int, name: str) -> list[str]:
        """The names in a folder that differ from this one in case at most."""
        found = os.fstat(folder)
        known = self._taken(found)
        if known is None:
            known = Known(found.st_mtime_ns)
            for text in map(sent_name, names_in(folder)):
                if text is not None:
                    known.add(text)
        self._keep(found, known)
        return known.names.get(folded(name), [])

    def _taken(self, folder: os.stat_result) -> Known | None:
        """What is known of it, if that is still right."""
        known = self._known.pop((folder.st_dev, folder.st_ino), None)
        self._count -= known.count + 1 if known else 0
        return known if known and known.changed == folder.st_mtime_ns else None

    def _keep(self, folder: os.stat_result, known: Known) -> None:
        self._known[folder.st_dev, folder.st_ino] = known
        self._count += known.count + 1
        while self._count > self._most:
            self._count -= self._known.pop(next(iter(self._known))).count + 1

    @contextmanager
    def changing(self, folder: int, added: Sequence[str] = (), removed: Sequence[str] = ()) -> Iterator[None]:
        """Notes a change that is made meanwhile."""
        known = self._taken(os.fstat(folder))
        yield
        if known:
            for name in removed:
                known.remove(name)
            for name in added:
                known.add(name)
            after = os.fstat(folder)
            known.changed = after.st_mtime_ns
            self._keep(after, known)
