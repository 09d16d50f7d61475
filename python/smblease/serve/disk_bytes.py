"""Bytes of a file, where they stand on disk.

A write that fails is taken back by the bytes that were there: reserved room is no promise where the disk copies on write, nor
against EIO."""
from __future__ import annotations

import errno
import logging
import os

LOG = logging.getLogger("serve")
# The most bytes that a file has: the disk counts places with a sign, also the one behind a transfer.
LARGEST = (1 << 63) - (1 << 24)


def read_bytes(descriptor: int, offset: int, length: int) -> bytes:
    """As many as there are."""
    data = os.pread(descriptor, length, offset)
    while data and len(data) < length:
        more = os.pread(descriptor, length - len(data), offset + len(data))
        if not more:
            break
        data += more
    return data


def write_bytes(descriptor: int, offset: int, data: bytes | memoryview) -> None:
    """All of them, or none: where the disk takes a part, the bytes before are put back."""
    size = os.lseek(descriptor, 0, os.SEEK_END)
    before = read_bytes(descriptor, offset, min(len(data), size - offset)) if offset < size else b""
    done = os.pwrite(descriptor, data, offset)
    if done == len(data):
        return
    try:
        _go_on(descriptor, offset, memoryview(data), done)
    except OSError:
        _put_back(descriptor, offset, before, size)
        raise


def _go_on(descriptor: int, offset: int, data: memoryview, done: int) -> None:
    while done < len(data):
        count = os.pwrite(descriptor, data[done:], offset + done)
        if not count:
            raise OSError(errno.ENOSPC, os.strerror(errno.ENOSPC))
        done += count


def _put_back(descriptor: int, offset: int, before: bytes, size: int) -> None:
    """What was there, byte for byte, and the end of the file where it was."""
    try:
        if before:
            _go_on(descriptor, offset, memoryview(before), 0)
        if os.fstat(descriptor).st_size != size:
            os.ftruncate(descriptor, size)
    except OSError as fault:
        LOG.warning("a write failed, and what stood there before couldn't be put back: %s", fault.strerror)
