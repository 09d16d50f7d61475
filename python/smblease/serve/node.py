"""Files and folders that somebody has open."""
from __future__ import annotations

import os
import stat
from typing import TYPE_CHECKING

from smblease.serve.kept_attributes import FOLDER, NORMAL, NOTHING, READ_ONLY, WRITABLE, Kept, kept_at
from smblease.serve.opens_of_file import OpensOfFile
from smblease.serve.shown_files import ON_DISK, ShownFiles

if TYPE_CHECKING:
    from smblease.serve.asks import Pause

UNIT = 4096


class Node:  # pylint: disable=too-many-instance-attributes  # it has the state of a file
    """A file or a folder. It is what its descriptor leads to; its path is looked at where its name matters."""

    def __init__(self, path: str, found: os.stat_result, stream_place: str | None = None, shown: ShownFiles = ON_DISK) -> None:
        """`stream_place` is where a stream is in the streams' folder."""
        self.path, self.found, self.stream_place, self.shown = path, found, stream_place, shown
        self.identity = found.st_dev, found.st_ino
        self.is_folder = stat.S_ISDIR(found.st_mode)
        # the manager's number of a file that is held
        self.number = self.allocated = 0
        self.descriptor: int | None = None
        self.is_writable = self.is_deleting = self.is_gone = False
        # how many creates and opens need the descriptor
        self.users = 0
        self.is_stream = stream_place is not None
        self.opens = OpensOfFile()
        # what waits until a lock or an open of it is given up
        self.pauses: list[Pause] = []

    @property
    def place(self) -> str:
        """Its path on its disk."""
        return self.path if self.stream_place is None else self.stream_place

    @property
    def name(self) -> str:
        return self.path.rpartition("\\")[2]

    @property
    def stat(self) -> os.stat_result:
        return self.shown_stat()

    def shown_stat(self) -> os.stat_result:
        """As clients are shown it."""
        found = self.found if self.descriptor is None else os.fstat(self.descriptor)
        return found if self.shown is ON_DISK else self.shown.shown(found)

    @property
    def kept(self) -> Kept:
        return NOTHING if self.descriptor is None else kept_at(self.descriptor)

    @property
    def is_read_only(self) -> bool:
        """A file that may only be read is one that its owner may not write."""
        found = self.stat
        return not self.is_folder and not found.st_mode & WRITABLE

    @property
    def file(self) -> int:
        """The descriptor of what is held."""
        assert self.descriptor is not None
        return self.descriptor


def attributes_in(found: os.stat_result, kept: Kept) -> int:
    """A file that has no attribute has the one that says so (MS-FSCC 2.6)."""
    mode = found.st_mode
    if stat.S_ISDIR(mode):
        return kept.of(True) | FOLDER
    return kept.of(False) | (0 if mode & WRITABLE else READ_ONLY) or NORMAL


def allocation(found: os.stat_result, allocated: int = 0) -> int:
    """Bytes that are taken, at least those that were asked for."""
    taken = found.st_size if found.st_size > allocated else allocated
    return -(-taken // UNIT) * UNIT
