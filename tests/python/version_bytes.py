"""Create contexts of version 2 and notifications with NewEpoch, by the layouts of MS-SMB2 and without the library."""
from __future__ import annotations

import struct
from dataclasses import dataclass
from typing import Optional

PARENT_SET, BREAKING = 4, 2


@dataclass(frozen=True)
class Lease:
    """`RqLs` (2.2.13.2.8, 2.2.13.2.10); without an epoch it is of version 1."""

    key: bytes
    state: int
    flags: int = 0
    epoch: Optional[int] = None
    parent: bytes = bytes(16)

    @classmethod
    def read(cls, data: bytes) -> Lease:
        key, state, flags, _ = struct.unpack_from("<16sLLQ", data)
        if len(data) == 32:
            return cls(key, state, flags)
        parent, epoch = struct.unpack_from("<16sH", data, 32)
        return cls(key, state, flags, epoch, parent)

    def write(self) -> bytes:
        first = struct.pack("<16sLLQ", self.key, self.state, self.flags, 0)
        return first if self.epoch is None else first + struct.pack("<16sHH", self.parent, self.epoch, 0)


def chain(contexts: list[tuple[bytes, bytes]]) -> bytes:
    """The text of these contexts, by name and data (2.2.13.2)."""
    text = b""
    for index, (name, data) in enumerate(contexts):
        offset = 24 if data else 0
        one = struct.pack("<HHHHL", 16, len(name), 0, offset, len(data)) + name.ljust(8, b"\0") + data
        is_last = index == len(contexts) - 1
        one += b"" if is_last else bytes(-(len(one) + 4) % 8)
        text += struct.pack("<L", 0 if is_last else len(one) + 4) + one
    return text


def links(text: bytes) -> dict[bytes, bytes]:
    """The data of the contexts, by name."""
    found: dict[bytes, bytes] = {}
    place = 0
    while text:
        following, name_offset, name_length, _, data_offset, data_length = struct.unpack_from("<LHHHHL", text, place)
        name = text[place + name_offset:place + name_offset + name_length]
        assert name not in found
        found[name] = text[place + data_offset:place + data_offset + data_length]
        place += following
        if not following:
            break
    return found


def durable_request(guid: bytes, timeout: int = 0) -> tuple[bytes, bytes]:
    return b"DH2Q", struct.pack("<LLQ16s", timeout, 0, 0, guid)


def durable_reconnect(guid: bytes, file_id: int) -> tuple[bytes, bytes]:
    return b"DH2C", struct.pack("<QQ16sL", file_id, 0, guid, 0)


def first_reconnect(file_id: int) -> tuple[bytes, bytes]:
    return b"DHnC", struct.pack("<QQ", file_id, 0)


FIRST_DURABLE = (b"DHnQ", bytes(16))


def new_epoch(notification: bytes) -> int:
    """NewEpoch of a notification (2.2.23.2)."""
    size, epoch = struct.unpack_from("<HH", notification)
    assert (size, len(notification)) == (44, 44)
    return int(epoch)
