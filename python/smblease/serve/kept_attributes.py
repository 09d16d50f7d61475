"""What the disk has no place for, in an extended attribute of the file: attributes, and the time that it was made."""
from __future__ import annotations

import os
import stat
import struct
from dataclasses import dataclass

READ_ONLY, HIDDEN, SYSTEM, FOLDER, ARCHIVE, NORMAL, TEMPORARY, OFFLINE, NOT_INDEXED = (
    0x1, 0x2, 0x4, 0x10, 0x20, 0x80, 0x100, 0x1000, 0x2000)
# What is kept of those that a client may set (MS-FSCC 2.6); "read only" is the disk's.
KEPT = HIDDEN | SYSTEM | ARCHIVE | TEMPORARY | OFFLINE | NOT_INDEXED
PLACE = "user.leasecheck.attributes"
FORM = struct.Struct("<LQ")
WRITABLE = 0o200


@dataclass(frozen=True)
class Kept:
    """Of attributes none are kept where they weren't set, and of the time 0."""

    attributes: int | None = None
    created: int = 0

    def of(self, is_folder: bool) -> int:
        """The attributes that it stands for: where none were set a file has "archive"."""
        return self.attributes if self.attributes is not None else 0 if is_folder else ARCHIVE


NOTHING = Kept()


def kept_at(descriptor: int) -> Kept:
    """(Of most files nothing is kept, and a list says that sooner than a fault.)"""
    try:
        return _read(os.getxattr(descriptor, PLACE)) if PLACE in os.listxattr(descriptor) else NOTHING
    except OSError:
        return NOTHING


def kept_below(folder: int, name: str) -> Kept:
    """Of what has a name in a folder."""
    try:
        return _read(os.getxattr(f"/proc/self/fd/{folder}/".encode() + name.encode(), PLACE, follow_symlinks=False))
    except OSError:
        return NOTHING


def _read(data: bytes) -> Kept:
    return Kept(*FORM.unpack(data)) if len(data) == FORM.size else NOTHING


def keep(descriptor: int, attributes: int, created: int | None = None) -> None:
    """Keeps those that are set, where any are, and the time. Raises OSError where that can't be kept, but not for what is so
    already."""
    before, is_folder = kept_at(descriptor), stat.S_ISDIR(os.fstat(descriptor).st_mode)
    kept = attributes & (KEPT | READ_ONLY if is_folder else KEPT) if attributes else before.of(is_folder)
    after = Kept(kept, before.created if created is None else created)
    if (after.attributes, after.created) != (before.of(is_folder), before.created):
        _write(descriptor, FORM.pack(kept, after.created))


def _write(descriptor: int, data: bytes) -> None:
    """Nobody may write it with a file that may only be read, which therefore becomes another one for the moment."""
    mode = stat.S_IMODE(os.fstat(descriptor).st_mode)
    if mode & WRITABLE:
        os.setxattr(descriptor, PLACE, data)
        return
    os.fchmod(descriptor, mode | WRITABLE)
    try:
        os.setxattr(descriptor, PLACE, data)
    finally:
        os.fchmod(descriptor, mode)
