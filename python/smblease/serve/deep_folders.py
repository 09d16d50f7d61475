"""Trees of folders of any depth, which are gone through without recursion and with one descriptor."""
from __future__ import annotations

import errno
import os
import stat
from collections.abc import Callable
from contextlib import closing

from smblease.serve.folder_names import FOLDER, names_in


class Descent:
    """A way down from a folder, and up again by `..`. No link is followed, and a folder that was moved meanwhile is a fault."""

    def __init__(self, root: str) -> None:
        self.folder = os.open(root, os.O_RDONLY | os.O_DIRECTORY | os.O_CLOEXEC)
        self._root = root
        self._names: list[bytes] = []
        self._above: list[os.stat_result] = []

    def close(self) -> None:
        os.close(self.folder)

    def descend(self, name: bytes) -> None:
        above = os.fstat(self.folder)
        self._go(name)
        self._above.append(above)
        self._names.append(name)

    def climb(self) -> bytes:
        """Leaves a folder, whose name it answers."""
        self._go(b"..")
        if not os.path.samestat(os.fstat(self.folder), self._above.pop()):
            raise FileNotFoundError(errno.ENOENT, "a folder was moved meanwhile")
        return self._names.pop()

    def _go(self, name: bytes) -> None:
        found = os.open(name, FOLDER, dir_fd=self.folder)
        os.close(self.folder)
        self.folder = found

    def mode(self, name: bytes) -> int:
        return os.stat(name, dir_fd=self.folder, follow_symlinks=False).st_mode

    def path(self, name: bytes) -> str:
        """Where a name of this folder is, for people."""
        return os.path.join(self._root, *map(os.fsdecode, [*self._names, name]))

    def place(self, name: bytes) -> str:
        """The same for the system, which takes no path of more than 4096 bytes."""
        return f"/proc/self/fd/{self.folder}/{os.fsdecode(name)}"


def go_through(way: Descent, each: Callable[[bytes], bool], left: Callable[[], None]) -> None:
    """Gives `each` the names, those in a folder after it where that answers yes; `left` is called after the last of them."""
    waiting = [sorted(names_in(way.folder), reverse=True)]
    while True:
        if waiting[-1]:
            if each(waiting[-1].pop()):
                waiting.append(sorted(names_in(way.folder), reverse=True))
        elif len(waiting) > 1:
            waiting.pop()
            left()
        else:
            return


def remove_all(folder: str) -> None:
    """Removes all that is in a folder."""
    with closing(Descent(folder)) as way:
        def remove(name: bytes) -> bool:
            is_folder = stat.S_ISDIR(way.mode(name))
            if is_folder:
                os.chmod(name, stat.S_IRWXU, dir_fd=way.folder)
                way.descend(name)
            else:
                os.unlink(name, dir_fd=way.folder)
            return is_folder
        go_through(way, remove, lambda: os.rmdir(way.climb(), dir_fd=way.folder))
