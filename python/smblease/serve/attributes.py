"""What is told of a file: times, sizes and attributes."""
from __future__ import annotations

import os
import stat
import struct

from smblease.serve.kept_attributes import Kept
from smblease.serve.node import allocation, attributes_in
from smblease.serve.times import of_disk


ATTRIBUTES = struct.Struct("<QQQQQQL")


def attributes_of(found: os.stat_result, kept: Kept, allocated: int = 0) -> bytes:
    """The time that it was made is told as the oldest one that is on disk, unless it was set."""
    accessed, written, changed = of_disk(found.st_atime_ns), of_disk(found.st_mtime_ns), of_disk(found.st_ctime_ns)
    return ATTRIBUTES.pack(kept.created or min(accessed, written, changed), accessed, written, changed,
                           allocation(found, allocated), size_of(found), attributes_in(found, kept))


def size_of(found: os.stat_result) -> int:
    return 0 if stat.S_ISDIR(found.st_mode) else found.st_size
