"""The folder that is served: the one that was named, or a temporary one."""
from __future__ import annotations

import logging
import os
import shutil
import stat
import tempfile
from collections.abc import Iterator
from contextlib import closing, contextmanager
from typing import NamedTuple

from smblease.drive.faults import DriveFault
from smblease.serve.deep_folders import Descent, go_through, remove_all

LOG = logging.getLogger("serve")


class Folders(NamedTuple):
    share: str
    streams: str


@contextmanager
def served_folders(folder: str | None, is_writable: bool) -> Iterator[Folders]:
    """The files of the share and those of streams. What is temporary is removed at the end."""
    if folder is not None and not os.path.isdir(folder):
        raise DriveFault(f"{folder}: no folder")
    with tempfile.TemporaryDirectory(prefix="leasecheck-serve-") as work:
        share, streams = os.path.join(work, "share"), os.path.join(work, "streams")
        os.mkdir(streams)
        if folder is not None and is_writable:
            share = folder
        else:
            os.mkdir(share)
        try:
            if folder is not None and not is_writable:
                _copy(folder, share)
            yield Folders(share, streams)
        finally:
            # (the module tempfile goes down one call for each folder)
            remove_all(work)


def _copy(source: str, target: str) -> None:
    with closing(Descent(source)) as here, closing(Descent(target)) as there:
        def copy(name: bytes) -> bool:
            try:
                return _copied(here, there, name)
            except OSError as fault:
                raise DriveFault(f"{here.path(name)}: {fault.strerror}") from None

        def leave() -> None:
            here.climb()
            there.climb()
        try:
            go_through(here, copy, leave)
        except OSError as fault:
            raise DriveFault(f"{source}: {fault.strerror}") from None


def _copied(here: Descent, there: Descent, name: bytes) -> bool:
    """Copies one name, and answers whether it is a folder, whose names are next."""
    mode = here.mode(name)
    if stat.S_ISLNK(mode):
        LOG.warning("%s: a link, which isn't followed", here.path(name))
    elif stat.S_ISDIR(mode):
        here.descend(name)
        os.mkdir(name, dir_fd=there.folder)
        there.descend(name)
    elif stat.S_ISREG(mode):
        shutil.copy2(here.place(name), there.place(name), follow_symlinks=False)
    else:
        LOG.warning("%s: no plain file, which isn't served", here.path(name))
    return stat.S_ISDIR(mode)
