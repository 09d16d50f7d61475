"""Access and sharing of opens (2.2.13.1, 2.2.13)."""
from __future__ import annotations

READ_DATA, WRITE_DATA, APPEND_DATA, EXECUTE, READ_ATTRIBUTES, WRITE_ATTRIBUTES, DELETE, READ_CONTROL, SYNCHRONIZE = (
    0x1, 0x2, 0x4, 0x20, 0x80, 0x100, 0x10000, 0x20000, 0x100000)
SHARE_READ, SHARE_WRITE, SHARE_DELETE = 1, 2, 4
ALL_ACCESS = 0x1F01FF
READING, WRITING, OF_ATTRIBUTES = READ_DATA | EXECUTE, WRITE_DATA | APPEND_DATA, READ_ATTRIBUTES | WRITE_ATTRIBUTES | SYNCHRONIZE
COUNTING = READING | WRITING | DELETE
ANY_GENERIC = 0xFE000000
GENERIC = {0x10000000: ALL_ACCESS, 0x02000000: ALL_ACCESS, 0x80000000: 0x120089, 0x40000000: 0x120116, 0x20000000: 0x1200A0}


def specific(access: int) -> int:
    """Generic rights as what they stand for."""
    found = access & 0x01FFFFFF
    for bit, rights in GENERIC.items() if access & ANY_GENERIC else ():
        if access & bit:
            found |= rights
    return found


def reads(access: int) -> bool:
    return bool(access & READING)


def writes(access: int) -> bool:
    return bool(access & WRITING)


def is_stat(access: int) -> bool:
    """Whether an open looks at attributes alone: it breaks nothing and shares with all."""
    return not access & ~(READ_ATTRIBUTES | WRITE_ATTRIBUTES | SYNCHRONIZE | READ_CONTROL)


def is_of_attributes(access: int) -> bool:
    """Whether an open is of attributes alone, so that it is granted neither an oplock nor a lease."""
    return not access & ~OF_ATTRIBUTES


def counts(access: int) -> bool:
    """Whether share access matters for an open."""
    return bool(access & COUNTING)
