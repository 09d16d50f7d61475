"""AES as dialects of SMB 3 use it, by the package cryptography, which nothing else of the server needs."""
from __future__ import annotations

import struct
from typing import Union

from cryptography.exceptions import InvalidTag
from cryptography.hazmat.primitives.ciphers.aead import AESCCM, AESGCM
from cryptography.hazmat.primitives.ciphers.algorithms import AES
from cryptography.hazmat.primitives.cmac import CMAC

from smblease.drive.headers import FROM_SERVER, Command, Unreadable
from smblease.serve.negotiate_contexts import Cipher
from smblease.serve.signing import END, NO_SIGNATURE, START

CCM = (Cipher.AES_128_CCM, Cipher.AES_256_CCM)
TAG = 16
# What tells apart messages of one number: who sends it, and whether it is a CANCEL.
BY_SERVER, IS_CANCEL = 1, 2
# A header's command, flags and number.
NAMED = struct.Struct("<12xH2xL4xQ")


class CmacSigner:
    """AES-128-CMAC."""

    is_by_number = False

    def __init__(self, key: bytes) -> None:
        self._algorithm = AES(key)

    def signature(self, data: bytes) -> bytes:
        made = CMAC(self._algorithm)
        made.update(data[:START] + NO_SIGNATURE)
        made.update(data[END:])
        return made.finalize()


class GmacSigner:
    """AES-128-GMAC, whose nonce is a message's number and who sends it (3.1.4.1)."""

    is_by_number = True

    def __init__(self, key: bytes) -> None:
        self._gcm = AESGCM(key)

    def signature(self, data: bytes) -> bytes:
        command, flags, number = NAMED.unpack_from(data)
        who = (BY_SERVER if flags & FROM_SERVER else 0) | (IS_CANCEL if command == Command.CANCEL else 0)
        return self._gcm.encrypt(struct.pack("<QL", number, who), b"", data[:START] + NO_SIGNATURE + data[END:])


class AuthenticatedCipher:
    """One direction of a session's encryption: bytes under a nonce, and others that are only guarded with them."""

    def __init__(self, cipher: Cipher, key: bytes) -> None:
        self._made: Union[AESCCM, AESGCM] = AESCCM(key) if cipher in CCM else AESGCM(key)
        self.nonce_length = 11 if cipher in CCM else 12

    def seal(self, nonce: bytes, data: bytes, guarded: bytes) -> tuple[bytes, bytes]:
        """The bytes as nobody else can read them, and their tag."""
        made = self._made.encrypt(nonce, data, guarded)
        return made[:-TAG], made[-TAG:]

    def open(self, nonce: bytes, data: bytes, tag: bytes, guarded: bytes) -> bytes:
        """What was sealed; Unreadable where any of it is another."""
        try:
            return self._made.decrypt(nonce, data + tag, guarded)
        except InvalidTag:
            raise Unreadable from None
