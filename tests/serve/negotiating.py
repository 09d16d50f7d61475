"""NEGOTIATE requests as bytes, with the contexts of dialect 3.1.1 (2.2.3)."""
from __future__ import annotations

import struct
from collections.abc import Sequence
from dataclasses import dataclass
from enum import Enum, IntEnum
from typing import Tuple

from smblease.drive.headers import Command, Message
from tests.serve.requests import Body

DIRECTORY_LEASING, ENCRYPTION = 0x20, 0x40
PREAUTH, ENCRYPTIONS, SIGNINGS = 1, 2, 8
SALT = b"s" * 32
Context = Tuple[int, bytes]
DIALECTS = {"SMB2_02": 0x0202, "SMB2_10": 0x0210, "SMB3_00": 0x0300, "SMB3_02": 0x0302, "SMB3_11": 0x0311}


class Cipher(IntEnum):
    AES_128_CCM = 1
    AES_128_GCM = 2
    AES_256_CCM = 3
    AES_256_GCM = 4


class Algorithm(IntEnum):
    HMAC_SHA256 = 0
    AES_CMAC = 1
    AES_GMAC = 2


class Guard(Enum):
    """How requests are guarded."""

    NONE = "none"
    SIGNED = "signed"
    SEALED = "sealed"


def listed(kind: int, *numbers: int) -> Context:
    return kind, struct.pack(f"<H{len(numbers)}H", len(numbers), *numbers)


def preauth(*hashes: int, salt: bytes = SALT) -> Context:
    return PREAUTH, struct.pack(f"<HH{len(hashes)}H", len(hashes), len(salt), *hashes) + salt


def joined(contexts: Sequence[Context]) -> bytes:
    text = b""
    for kind, data in contexts:
        text += bytes(-len(text) % 8) + struct.pack("<HHL", kind, len(data), 0) + data
    return text


@dataclass(frozen=True)
class Asking:
    """What a client says of itself."""

    dialects: Tuple[int, ...] = (0x0311,)
    contexts: Tuple[Context, ...] = (preauth(1),)
    capabilities: int = DIRECTORY_LEASING | ENCRYPTION
    mode: int = 1
    guid: bytes = b"g" * 16

    def body(self, text: bytes | None = None, count: int | None = None) -> Body:
        """With these bytes in place of its contexts, and this count."""
        head = struct.pack("<HHHHL16s", 36, len(self.dialects), self.mode, 0, self.capabilities, self.guid)
        dialects = struct.pack(f"<{len(self.dialects)}H", *self.dialects)
        if 0x0311 not in self.dialects:
            return Command.NEGOTIATE, head + bytes(8) + dialects
        place = 64 + 36 + len(dialects)
        padding = bytes(-place % 8)
        count = len(self.contexts) if count is None else count
        text = joined(self.contexts) if text is None else text
        return Command.NEGOTIATE, head + struct.pack("<LHH", place + len(padding), count, 0) + dialects + padding + text


def contexts_of(answer: Message) -> list[Context]:
    """Those of an answer to NEGOTIATE."""
    count, place = answer.number(70, 2), answer.number(124, 4)
    found = []
    for _ in range(count):
        place += -place % 8
        kind, length = answer.number(place, 2), answer.number(place + 2, 2)
        found.append((kind, answer.part(place + 8, length)))
        place += 8 + length
    assert not count or place == len(answer.data)
    return found


def chosen(answer: Message, kind: int) -> int | None:
    """The one number of a context of an answer."""
    data = dict(contexts_of(answer)).get(kind)
    assert data is None or data[:2] == b"\1\0"
    return None if data is None else int.from_bytes(data[2:4], "little")
