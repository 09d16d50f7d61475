"""What signs the messages of a session, and looks at signatures (3.1.4.1, 3.1.5.1)."""
from __future__ import annotations

import hashlib
import hmac
from typing import Protocol

# Where a message has its signature.
START, END = 48, 64
NO_SIGNATURE = bytes(16)


class Signer(Protocol):
    # whether it may sign but one message of a number
    is_by_number: bool

    def signature(self, data: bytes) -> bytes:
        """That of a message, whatever stands in its place."""


class HmacSigner:
    """That of dialects 2.0.2 and 2.1, and of 3.1.1 where that is chosen: the first half of an HMAC of SHA-256."""

    is_by_number = False

    def __init__(self, key: bytes) -> None:
        self._key = key

    def signature(self, data: bytes) -> bytes:
        made = hmac.new(self._key, data[:START], hashlib.sha256)
        made.update(NO_SIGNATURE)
        made.update(memoryview(data)[END:])
        return made.digest()[:16]


def signed(data: bytes, signer: Signer) -> bytes:
    """A message with its signature."""
    return b"".join((data[:START], signer.signature(data), memoryview(data)[END:]))
