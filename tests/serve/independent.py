"""The cryptography of dialects of SMB 3 by other packages than the server's: impacket and Cryptodome."""
from __future__ import annotations

import hashlib
import hmac
import struct
from typing import Any

from Cryptodome.Cipher import AES
from Cryptodome.Hash import CMAC
from impacket.crypto import KDF_CounterMode

from tests.serve.negotiating import Algorithm, Cipher

# ProtocolId, tag, nonce, length, flags and session of a SMB2 TRANSFORM_HEADER (2.2.41).
TRANSFORM = struct.Struct("<4s16s16sL2xHQ")
ENCRYPTED = b"\xfdSMB"
CCM = (Cipher.AES_128_CCM, Cipher.AES_256_CCM)


class Wrong(Exception):
    """What was sealed can't be opened."""


def derived(key: bytes, label: bytes, context: bytes, bits: int = 128) -> bytes:
    return bytes(KDF_CounterMode(key, label, context, bits))


def signature(algorithm: Algorithm, key: bytes, data: bytes) -> bytes:
    """That of a message (3.1.4.1)."""
    guarded = data[:48] + bytes(16) + data[64:]
    if algorithm is Algorithm.HMAC_SHA256:
        return hmac.new(key, guarded, hashlib.sha256).digest()[:16]
    if algorithm is Algorithm.AES_CMAC:
        return bytes(CMAC.new(key, guarded, ciphermod=AES).digest())
    is_answer, is_cancel = data[16] & 1, data[12:14] == b"\x0c\0"
    made: Any = AES.new(key, AES.MODE_GCM, nonce=data[24:32] + struct.pack("<L", is_answer | is_cancel << 1))
    made.update(guarded)
    return bytes(made.digest())


def _cipher(cipher: Cipher, key: bytes, guarded: bytes) -> Any:
    mode, length = (AES.MODE_CCM, 11) if cipher in CCM else (AES.MODE_GCM, 12)
    made: Any = AES.new(key, mode, nonce=guarded[:length])
    made.update(guarded)
    return made


def sealed(cipher: Cipher, key: bytes, session: int, nonce: bytes, data: bytes) -> bytes:
    head = TRANSFORM.pack(ENCRYPTED, b"", nonce, len(data), 1, session)
    made, tag = _cipher(cipher, key, head[20:]).encrypt_and_digest(data)
    return head[:4] + bytes(tag) + head[20:] + bytes(made)


def opened(cipher: Cipher, key: bytes, frame: bytes) -> bytes:
    tag = frame[4:20]
    try:
        return bytes(_cipher(cipher, key, frame[20:52]).decrypt_and_verify(frame[52:], tag))
    except ValueError:
        raise Wrong from None
