"""The keys of a session (3.1.4.2): what signs its messages, and what seals and opens them."""
from __future__ import annotations

import hashlib
import hmac
from dataclasses import dataclass
from typing import NamedTuple, Protocol

from smblease.serve.dialects import Dialect
from smblease.serve.negotiate_contexts import Cipher, SigningAlgorithm
from smblease.serve.signing import HmacSigner, Signer
from smblease.serve.transforms import SessionEncryption

LONG_CIPHERS = (Cipher.AES_256_CCM, Cipher.AES_256_GCM)


class Purpose(NamedTuple):
    label: bytes
    # of 3.0 and 3.0.2; that of 3.1.1 is the session's preauthentication integrity hash
    context: bytes = b""


SIGNING, OPENING, SEALING = (Purpose(b"SMB2AESCMAC\0", b"SmbSign\0"), Purpose(b"SMB2AESCCM\0", b"ServerIn \0"),
                             Purpose(b"SMB2AESCCM\0", b"ServerOut\0"))
OF_3_1_1 = (Purpose(b"SMBSigningKey\0"), Purpose(b"SMBC2SCipherKey\0"), Purpose(b"SMBS2CCipherKey\0"))


@dataclass(frozen=True)
class SessionKeys:
    signer: Signer
    encryption: SessionEncryption | None = None


def derived(key: bytes, label: bytes, context: bytes, bits: int = 128) -> bytes:
    """SP800-108 in counter mode, by HMAC of SHA-256: one block, which is as long as any key here."""
    block = (1).to_bytes(4, "big") + label + b"\0" + context + bits.to_bytes(4, "big")
    return hmac.new(key, block, hashlib.sha256).digest()[:bits // 8]


class Algorithms(Protocol):
    """What a connection has agreed on that makes keys."""

    @property
    def dialect(self) -> Dialect: ...

    @property
    def cipher(self) -> Cipher | None: ...

    @property
    def algorithm(self) -> SigningAlgorithm: ...


def session_keys(terms: Algorithms, session: int, key: bytes, integrity: bytes, is_client: bool = False) -> SessionKeys:
    """Those of a session whose user was proved, for its server or its client; `integrity` is its hash at 3.1.1."""
    if terms.dialect < Dialect.SMB_3_0:
        return SessionKeys(HmacSigner(key))
    is_of_3_1_1 = terms.dialect is Dialect.SMB_3_1_1
    bits = 256 if terms.cipher in LONG_CIPHERS else 128
    signing, opening, sealing = (derived(key, it.label, integrity if is_of_3_1_1 else it.context, size) for it, size
                                 in zip(OF_3_1_1 if is_of_3_1_1 else (SIGNING, OPENING, SEALING), (128, bits, bits)))
    if is_client:
        sealing, opening = opening, sealing
    return SessionKeys(_signer(terms.algorithm, signing), _encryption(terms.cipher, session, sealing, opening))


# (dialects of 2 are served without the package that this needs)

def _signer(algorithm: SigningAlgorithm, key: bytes) -> Signer:
    from smblease.serve.aes import CmacSigner, GmacSigner  # pylint: disable=import-outside-toplevel
    if algorithm is SigningAlgorithm.HMAC_SHA256:
        return HmacSigner(key)
    if algorithm is SigningAlgorithm.AES_GMAC:
        return GmacSigner(key)
    return CmacSigner(key)


def _encryption(cipher: Cipher | None, session: int, sealing: bytes, opening: bytes) -> SessionEncryption | None:
    from smblease.serve.aes import AuthenticatedCipher  # pylint: disable=import-outside-toplevel
    if cipher is None:
        return None
    return SessionEncryption(session, AuthenticatedCipher(cipher, sealing), AuthenticatedCipher(cipher, opening))
