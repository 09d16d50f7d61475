"""Files and folders beneath one folder, by their paths as they are on disk. Nothing leads out of it: each part of a path is
opened in the folder before it, and no link is followed."""
from __future__ import annotations

import errno
import os
import stat
from collections.abc import Iterator
from contextlib import ExitStack, contextmanager
from dataclasses import dataclass

from smblease.serve.folder_names import FOLDER, FolderNames
from smblease.serve.names import joined, split

PLACE = os.O_PATH | os.O_DIRECTORY | os.O_NOFOLLOW | os.O_CLOEXEC
# Which of the bits of a mode say what kind of file it is, and the kinds that are served.
KIND, SERVED = 0o170000, (stat.S_IFREG, stat.S_IFDIR)
# (a pipe that stands in a file's place isn't waited for)
FILE = os.O_NOFOLLOW | os.O_NONBLOCK | os.O_CLOEXEC
READ_ONLY_MODE, MODE = 0o444, 0o666
NOT_WRITABLE = {errno.EACCES, errno.EPERM, errno.EROFS, errno.ETXTBSY}


@dataclass(eq=False)
class Located:
    """What stands on disk at a path, whose names are as they are there."""

    path: str
    stat: os.stat_result

    @property
    def is_folder(self) -> bool:
        return stat.S_ISDIR(self.stat.st_mode)


def is_served(found: os.stat_result) -> bool:
    """Links, pipes and devices aren't."""
    return found.st_mode & KIND in SERVED


class Disk:
    def __init__(self, root: str) -> None:
        self._root = os.open(root, os.O_RDONLY | os.O_DIRECTORY | os.O_CLOEXEC)
        self._names = FolderNames()

    def close(self) -> None:
        os.close(self._root)

    def space(self) -> os.statvfs_result:
        return os.fstatvfs(self._root)

    @contextmanager
    def within(self, path: str) -> Iterator[int]:
        """A folder, to name things in."""
        folder = os.dup(self._root)
        try:
            for part in path.split("\\") if path else ():
                folder = _below(folder, part)
            yield folder
        finally:
            os.close(folder)

    def locate(self, path: str) -> Located | None:
        """What a client means by a path. Case matters where a name is there in just this form."""
        if not path:
            return Located(path, os.fstat(self._root))
        if "\\" in path:
            return self._locate_below(path)
        looked_up = self._looked_up(self._root, path)
        return Located(*looked_up) if looked_up else None

    def _locate_below(self, path: str) -> Located | None:
        found, exact = os.fstat(self._root), ""
        folder = os.dup(self._root)
        try:
            for place, part in enumerate(path.split("\\")):
                if place:
                    folder = _below(folder, split(exact)[1])
                looked_up = self._looked_up(folder, part) if stat.S_ISDIR(found.st_mode) else None
                if looked_up is None:
                    return None
                exact, found = joined(exact, looked_up[0]), looked_up[1]
        finally:
            os.close(folder)
        return Located(exact, found)

    def _looked_up(self, folder: int, name: str) -> tuple[str, os.stat_result] | None:
        """The name in just this form, else one that differs in case alone."""
        found = stat_in(folder, name)
        if found:
            return name, found
        for other in self._names.alike(folder, name):
            found = stat_in(folder, other)
            if found:
                return other, found
        return None

    def locate_folder(self, path: str) -> str | None:
        found = self.locate(path)
        return found.path if found and found.is_folder else None

    def open_folder(self, path: str) -> int:
        with self.within(path) as place:
            return os.open(".", FOLDER, dir_fd=place)

    def open_file(self, path: str) -> tuple[int, bool]:
        """A descriptor, and whether it can be written by. What it leads to may be another file than the one that was located."""
        if "\\" not in path:
            return _open_file(self._root, path)
        folder, name = split(path)
        with self.within(folder) as place:
            return _open_file(place, name)

    def make_file(self, path: str, is_read_only: bool) -> int:
        folder, name = split(path)
        with self.within(folder) as place:
            mode = READ_ONLY_MODE if is_read_only else MODE
            with self._names.changing(place, added=[name]):
                return os.open(name.encode(), FILE | os.O_RDWR | os.O_CREAT | os.O_EXCL, mode, dir_fd=place)

    def make_folder(self, path: str) -> None:
        folder, name = split(path)
        with self.within(folder) as place:
            with self._names.changing(place, added=[name]):
                os.mkdir(name.encode(), dir_fd=place)

    def remove(self, path: str, identity: tuple[int, int], is_folder: bool) -> None:
        """Removes what this path names, as long as it is what it was."""
        folder, name = split(path)
        with self.within(folder) as place:
            if not _is_same(place, name, identity):
                return
            with self._names.changing(place, removed=[name]):
                if is_folder:
                    os.rmdir(name.encode(), dir_fd=place)
                else:
                    os.unlink(name.encode(), dir_fd=place)

    def rename(self, old: str, new: str, identity: tuple[int, int]) -> None:
        """Puts a file or a folder, as long as it is what it was, in the place of another name, whose file goes. What isn't served
        stays."""
        (old_folder, old_name), (new_folder, new_name) = split(old), split(new)
        with self.within(old_folder) as source, self.within(new_folder) as target:
            if not _is_same(source, old_name, identity):
                raise FileNotFoundError(errno.ENOENT, "another file has the name by now")
            if _is_there(target, new_name) and stat_in(target, new_name) is None:
                raise FileExistsError(errno.EEXIST, "what has the name isn't served")
            if os.path.samestat(os.fstat(source), os.fstat(target)):
                both = [self._names.changing(target, [new_name], [old_name])]
            else:
                both = [self._names.changing(source, removed=[old_name]), self._names.changing(target, [new_name])]
            with ExitStack() as changes:
                for one in both:
                    changes.enter_context(one)
                os.rename(old_name.encode(), new_name.encode(), src_dir_fd=source, dst_dir_fd=target)

    def may_change(self, path: str) -> bool:
        """Whether names may be made and removed in a folder."""
        with self.within(path) as place:
            return os.access(".", os.W_OK | os.X_OK, dir_fd=place, effective_ids=True)


def _below(folder: int, name: str) -> int:
    """A folder in another one, whose descriptor it takes the place of; that stays where there is no such folder."""
    below = os.open(name.encode(), PLACE, dir_fd=folder)
    os.close(folder)
    return below


def stat_in(folder: int, name: str) -> os.stat_result | None:
    try:
        found = os.stat(name.encode(), dir_fd=folder, follow_symlinks=False)
    except (FileNotFoundError, NotADirectoryError):
        return None
    return found if found.st_mode & KIND in SERVED else None


def _open_file(folder: int, name: str) -> tuple[int, bool]:
    place = name.encode()
    try:
        return os.open(place, FILE | os.O_RDWR, dir_fd=folder), True
    except OSError as fault:
        if fault.errno not in NOT_WRITABLE:
            raise
    return os.open(place, FILE | os.O_RDONLY, dir_fd=folder), False


def _is_same(folder: int, name: str, identity: tuple[int, int]) -> bool:
    found = stat_in(folder, name)
    return found is not None and (found.st_dev, found.st_ino) == identity


def _is_there(folder: int, name: str) -> bool:
    try:
        os.stat(name.encode(), dir_fd=folder, follow_symlinks=False)
    except FileNotFoundError:
        return False
    return True
