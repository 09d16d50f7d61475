"""Encrypted messages: a SMB2 TRANSFORM_HEADER, and a message or a compound that only a session's keys open (2.2.41)."""
from __future__ import annotations

import itertools
import struct
from typing import TYPE_CHECKING

from smblease.drive.headers import Unreadable
from smblease.drive.packets import ENCRYPTED

if TYPE_CHECKING:
    from smblease.serve.aes import AuthenticatedCipher

# Its beginning and the tag; nonce, length of what is sealed, flags and session, which the tag guards too.
BEGINNING = struct.Struct("<4s16s")
GUARDED = struct.Struct("<16sL2xHQ")
SIZE = BEGINNING.size + GUARDED.size
IS_ENCRYPTED = 1


class SessionEncryption:
    """What a session's messages are sealed and opened with."""

    def __init__(self, session: int, sealing: AuthenticatedCipher, opening: AuthenticatedCipher) -> None:
        self._session, self._sealing, self._opening = session, sealing, opening
        # no nonce of a key comes twice
        self._nonces = itertools.count(1)
        # whether the client has sealed a message
        self.is_used = False

    def sealed(self, data: bytes) -> bytes:
        """A message or a compound with its header."""
        length = self._sealing.nonce_length
        nonce = next(self._nonces).to_bytes(length, "little")
        guarded = GUARDED.pack(nonce, len(data), IS_ENCRYPTED, self._session)
        made, tag = self._sealing.seal(nonce, data, guarded)
        return b"".join((BEGINNING.pack(ENCRYPTED, tag), guarded, made))

    def opened(self, frame: bytes) -> bytes:
        """What was sealed; Unreadable where it isn't what the client sent (3.3.5.2.1.1)."""
        _, tag = BEGINNING.unpack_from(frame)
        nonce, length, flags, _ = GUARDED.unpack_from(frame, BEGINNING.size)
        if flags != IS_ENCRYPTED or length != len(frame) - SIZE:
            raise Unreadable
        nonce = nonce[:self._opening.nonce_length]
        found = self._opening.open(nonce, frame[SIZE:], tag, frame[BEGINNING.size:SIZE])
        self.is_used = True
        return found


def session_of(frame: bytes) -> int:
    """The session in whose name a message was sealed."""
    if len(frame) <= SIZE or frame[:4] != ENCRYPTED:
        raise Unreadable
    return int(GUARDED.unpack_from(frame, BEGINNING.size)[3])
