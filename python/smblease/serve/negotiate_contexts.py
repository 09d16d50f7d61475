"""The negotiate contexts of dialect 3.1.1 (2.2.3.1, 2.2.4.1), as far as a server heeds them."""
from __future__ import annotations

import struct
from collections.abc import Iterator, Sequence
from dataclasses import dataclass
from enum import IntEnum

from smblease import Status
from smblease.drive.headers import HEADER, Message
from smblease.serve.status_error import StatusError

SHA_512 = 1
# Type and length (2.2.3.1); each begins at a multiple of eight.
HEAD = struct.Struct("<HHL")
NUMBER = struct.Struct("<H")
# STATUS_SMB_NO_PREAUTH_INTEGRITY_HASH_OVERLAP
NO_HASH_OVERLAP = 0xC05D0000


class ContextType(IntEnum):
    PREAUTH_INTEGRITY_CAPABILITIES = 1
    ENCRYPTION_CAPABILITIES = 2
    SIGNING_CAPABILITIES = 8


class Cipher(IntEnum):
    AES_128_CCM = 1
    AES_128_GCM = 2
    AES_256_CCM = 3
    AES_256_GCM = 4


class SigningAlgorithm(IntEnum):
    HMAC_SHA256 = 0
    AES_CMAC = 1
    AES_GMAC = 2


# The length of what stands before the numbers of each.
FIXED = {ContextType.PREAUTH_INTEGRITY_CAPABILITIES: 4, ContextType.ENCRYPTION_CAPABILITIES: 2,
         ContextType.SIGNING_CAPABILITIES: 2}


@dataclass(frozen=True)
class Chosen:
    """What the answer's contexts say: None where the client didn't ask, and of a cipher that none is common."""

    has_ciphers: bool
    cipher: Cipher | None
    algorithm: SigningAlgorithm | None


def each(message: Message) -> Iterator[tuple[int, bytes]]:
    """Types and data, in order. What doesn't lie in the message is STATUS_INVALID_PARAMETER."""
    place, count = message.number(HEADER + 28, 4), message.number(HEADER + 32, 2)
    if count and (place % 8 or place < HEADER + 36):
        raise StatusError(Status.INVALID_PARAMETER)
    return each_at(message, place, count)


def each_at(message: Message, place: int, count: int) -> Iterator[tuple[int, bytes]]:
    """So many that begin at this place of a message, of a request or of an answer."""
    data = message.data
    for _ in range(count):
        place += -place % 8
        if place + HEAD.size > len(data):
            raise StatusError(Status.INVALID_PARAMETER)
        kind, length, _ = HEAD.unpack_from(data, place)
        place += HEAD.size
        if place + length > len(data):
            raise StatusError(Status.INVALID_PARAMETER)
        yield kind, data[place:place + length]
        place += length


def choose(message: Message) -> Chosen:
    """Of what a client offers the first that the server has too (3.3.5.4); what else is there is passed over."""
    found: dict[ContextType, tuple[int, ...]] = {}
    for number, data in each(message):
        kind = next((it for it in FIXED if it == number), None)
        if kind in found:
            raise StatusError(Status.INVALID_PARAMETER)
        if kind is not None:
            found[kind] = _numbers(kind, data)
    hashes = found.get(ContextType.PREAUTH_INTEGRITY_CAPABILITIES)
    if hashes is None:
        raise StatusError(Status.INVALID_PARAMETER)
    if SHA_512 not in hashes:
        raise StatusError(NO_HASH_OVERLAP)
    ciphers = found.get(ContextType.ENCRYPTION_CAPABILITIES)
    algorithms = found.get(ContextType.SIGNING_CAPABILITIES, ())
    return Chosen(ciphers is not None, next((Cipher(it) for it in ciphers or () if it in set(Cipher)), None),
                  next((SigningAlgorithm(it) for it in algorithms if it in set(SigningAlgorithm)), None))


def _numbers(kind: ContextType, data: bytes) -> tuple[int, ...]:
    """The algorithms that a context lists, of which there has to be one; a salt may follow."""
    start = FIXED[kind]
    if len(data) < start:
        raise StatusError(Status.INVALID_PARAMETER)
    count, salt = NUMBER.unpack_from(data)[0], 0
    if kind is ContextType.PREAUTH_INTEGRITY_CAPABILITIES:
        salt, = NUMBER.unpack_from(data, 2)
    if not count or start + 2 * count + salt > len(data):
        raise StatusError(Status.INVALID_PARAMETER)
    return struct.unpack_from(f"<{count}H", data, start)


def answered(chosen: Chosen, salt: bytes) -> tuple[int, bytes]:
    """How many contexts the answer has, and their bytes."""
    contexts = [(ContextType.PREAUTH_INTEGRITY_CAPABILITIES, struct.pack("<HHH", 1, len(salt), SHA_512) + salt)]
    if chosen.has_ciphers:
        contexts.append((ContextType.ENCRYPTION_CAPABILITIES, struct.pack("<HH", 1, chosen.cipher or 0)))
    if chosen.algorithm is not None:
        contexts.append((ContextType.SIGNING_CAPABILITIES, struct.pack("<HH", 1, chosen.algorithm)))
    return len(contexts), joined(contexts)


def joined(contexts: Sequence[tuple[ContextType, bytes]]) -> bytes:
    """As they stand in a message."""
    text = b""
    for kind, data in contexts:
        text += bytes(-len(text) % 8) + HEAD.pack(kind, len(data), 0) + data
    return text
