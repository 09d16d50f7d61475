"""NEGOTIATE of a client that speaks dialects of 3 (2.2.3, 2.2.4), and the word that nobody changed it on its way (2.2.31.4)."""
from __future__ import annotations

import os
import struct
from collections.abc import Sequence
from dataclasses import dataclass

from smblease.drive.headers import HEADER, Message
from smblease.serve.dialects import Dialect
from smblease.serve.negotiate_contexts import (SHA_512, Cipher, ContextType, SigningAlgorithm, each_at, joined)

SIGNING_ENABLED = 1
# SMB2_GLOBAL_CAP_LEASING, _LARGE_MTU and _ENCRYPTION
CAPABILITIES, ENCRYPTION = 0x46, 0x40
FIXED, NUMBERS = struct.Struct("<HHHHL16s"), struct.Struct("<LHH")
# What a server says of itself: SecurityMode, DialectRevision, NegotiateContextCount, ServerGuid and Capabilities.
SAID = struct.Struct("<2xHHH16sL")
CONTEXTS_PLACE = HEADER + 60
CIPHERS = (Cipher.AES_128_GCM, Cipher.AES_128_CCM)
SALT = 32
# What FSCTL_VALIDATE_NEGOTIATE_INFO asks with, before the dialects, and is answered.
VALIDATION = struct.Struct("<L16sHH")
FSCTL_VALIDATE_NEGOTIATE_INFO, OF_NO_FILE, IS_FSCTL = 0x00140204, b"\xff" * 16, 1
IOCTL = struct.Struct("<H2xL16sLLLLLLL4x")


@dataclass(frozen=True)
class Agreed:
    """What a connection speaks. `said` is what its server has to say of that once more."""

    dialect: Dialect
    cipher: Cipher | None
    said: bytes
    algorithm: SigningAlgorithm = SigningAlgorithm.AES_CMAC


def negotiate_request(guid: bytes, dialects: Sequence[Dialect]) -> bytes:
    """The body; contexts are there where 3.1.1 is among the dialects."""
    numbers = struct.pack(f"<{len(dialects)}H", *dialects)
    place = HEADER + FIXED.size + NUMBERS.size + len(numbers)
    gap = bytes(-place % 8)
    fixed = FIXED.pack(36, len(dialects), SIGNING_ENABLED, 0, CAPABILITIES, guid)
    if Dialect.SMB_3_1_1 not in dialects:
        return fixed + NUMBERS.pack(0, 0, 0) + numbers
    contexts = [(ContextType.PREAUTH_INTEGRITY_CAPABILITIES, struct.pack("<HHH", 1, SALT, SHA_512) + os.urandom(SALT)),
                (ContextType.ENCRYPTION_CAPABILITIES, struct.pack(f"<H{len(CIPHERS)}H", len(CIPHERS), *CIPHERS))]
    return fixed + NUMBERS.pack(place + len(gap), len(contexts), 0) + numbers + gap + joined(contexts)


def agreed_in(answer: Message) -> Agreed:
    """What a server chose. A dialect that there isn't is a ValueError."""
    mode, revision, count, guid, capabilities = SAID.unpack(answer.part(HEADER, SAID.size))
    dialect = Dialect(revision)
    if dialect is Dialect.SMB_3_1_1:
        cipher = _cipher(answer, count)
    else:
        cipher = Cipher.AES_128_CCM if dialect >= Dialect.SMB_3_0 and capabilities & ENCRYPTION else None
    return Agreed(dialect, cipher, VALIDATION.pack(capabilities, guid, mode, dialect))


def _cipher(answer: Message, count: int) -> Cipher | None:
    """That of the answer's context; none where it has none that was offered."""
    for kind, data in each_at(answer, answer.number(CONTEXTS_PLACE, 4), count):
        if kind == ContextType.ENCRYPTION_CAPABILITIES and len(data) >= 4:
            return next((it for it in CIPHERS if it == int.from_bytes(data[2:4], "little")), None)
    return None


def validation_request(guid: bytes, dialects: Sequence[Dialect]) -> bytes:
    """The body of an IOCTL."""
    asked = VALIDATION.pack(CAPABILITIES, guid, SIGNING_ENABLED, len(dialects)) + struct.pack(f"<{len(dialects)}H", *dialects)
    return IOCTL.pack(57, FSCTL_VALIDATE_NEGOTIATE_INFO, OF_NO_FILE, HEADER + IOCTL.size, len(asked), 0, 0, 0, VALIDATION.size,
                      IS_FSCTL) + asked


def validated(answer: Message) -> bytes:
    """What a server says once more in the answer to that."""
    return answer.part(answer.number(HEADER + 32, 4), answer.number(HEADER + 36, 4))
