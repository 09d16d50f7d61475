"""Who may do what (MS-DTYP 2.4): everyone may do all, and owns all. A descriptor that says so is taken, and no other."""
from __future__ import annotations

import struct
from collections.abc import Iterator

from smblease import Status
from smblease.serve.status_error import StatusError

EVERYONE = bytes.fromhex("010100000000000100000000")
ALL, GENERIC_ALL = 0x1F01FF, 0x10000000
HEAD, ACL, ACE = struct.Struct("<BBHLLLL"), struct.Struct("<BBHHH"), struct.Struct("<BBHL")
RELATIVE, HAS_LIST, HAS_AUDITING = 0x8000, 0x4, 0x10
DESCRIPTOR = (HEAD.pack(1, 0, RELATIVE | HAS_LIST, 20, 32, 0, 44) + EVERYONE * 2 + ACL.pack(2, 0, 28, 1, 0)
              + ACE.pack(0, 0, 20, ALL) + EVERYONE)
# The parts that a request sets (2.2.39), and the rights that it needs for them.
OWNER, GROUP, ACCESS, AUDITING = 1, 2, 4, 8
WRITE_ACCESS, WRITE_OWNER = 0x40000, 0x80000
ALLOWED, ONLY_INHERITED = 0, 8


def check_descriptor(data: bytes, parts: int, access: int) -> None:
    """Refuses one by which not everyone might do all: nobody would be kept from anything by it."""
    if parts & ACCESS and not access & WRITE_ACCESS or parts & (OWNER | GROUP) and not access & WRITE_OWNER:
        raise StatusError(Status.ACCESS_DENIED)
    try:
        is_so = _says_what_is_so(data, parts)
    except struct.error:
        raise StatusError(Status.INVALID_PARAMETER) from None
    if not is_so:
        raise StatusError(Status.NOT_SUPPORTED)


def _says_what_is_so(data: bytes, parts: int) -> bool:
    _, _, control, owner, group, _, entries = HEAD.unpack_from(data)
    if parts & OWNER and data[owner:owner + 12] != EVERYONE or parts & GROUP and data[group:group + 12] != EVERYONE:
        return False
    if parts & AUDITING and control & HAS_AUDITING:
        return False
    return not (parts & ACCESS and control & HAS_LIST and entries) or _lets_everyone(data[entries:])


def _lets_everyone(text: bytes) -> bool:
    """Whether the first entry that counts lets everyone do all."""
    for kind, flags, rights, whose in _entries(text):
        if not flags & ONLY_INHERITED:
            return kind == ALLOWED and whose == EVERYONE and (rights & ALL == ALL or bool(rights & GENERIC_ALL))
    return False


def _entries(text: bytes) -> Iterator[tuple[int, int, int, bytes]]:
    _, _, _, count, _ = ACL.unpack_from(text)
    place = ACL.size
    for _ in range(count):
        kind, flags, size, rights = ACE.unpack_from(text, place)
        yield kind, flags, rights, text[place + ACE.size:place + size]
        place += max(size, ACE.size)
