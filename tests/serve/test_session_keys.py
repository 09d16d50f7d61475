"""Keys, signatures and encryption of dialects of SMB 3, against published vectors and other packages."""
from __future__ import annotations

import hashlib
import random
import struct

import pytest

from smblease.drive.headers import Unreadable
from smblease.serve import negotiate_contexts
from smblease.serve import session_keys as ours
from smblease.serve.dialects import Dialect
from smblease.serve.negotiation import Asked, Terms
from smblease.serve.preauth_integrity import PreauthIntegrity
from smblease.serve.session_keys import SessionKeys, derived, session_keys
from smblease.serve.signing import signed
from smblease.serve.transforms import SIZE, SessionEncryption, session_of
from tests import needs
from tests.serve.negotiating import Algorithm, Cipher
from tests.serve.requests import header

theirs = pytest.importorskip("tests.serve.independent", reason=f"there is no impacket or Cryptodome; {needs.INSTALLS}")
pytest.importorskip("cryptography", reason=f"there is no cryptography; {needs.INSTALLS}")
KEY, INTEGRITY = bytes(range(16)), bytes(range(64))
SESSION = 0x1122334455667788
# A READ of a client, its answer, and a CANCEL.
MESSAGES = [header(8, 7, SESSION, 1) + b"body", header(8, 7, SESSION, 1, flags=1) + bytes(1000),
            header(12, 7, SESSION, 1) + b"four"]


def terms(dialect: Dialect, cipher: Cipher | None = None, algorithm: Algorithm = Algorithm.AES_CMAC) -> Terms:
    asked = Asked(1, 0, bytes(16), (dialect,))
    found = None if cipher is None else negotiate_contexts.Cipher(cipher)
    return Terms(dialect, asked, 1, 0, found, negotiate_contexts.SigningAlgorithm(algorithm), None)


def keys_of(dialect: Dialect, cipher: Cipher | None = None, algorithm: Algorithm = Algorithm.AES_CMAC) -> SessionKeys:
    return session_keys(terms(dialect, cipher, algorithm), SESSION, KEY, INTEGRITY)


def encryption_of(cipher: Cipher, dialect: Dialect = Dialect.SMB_3_1_1) -> SessionEncryption:
    found = keys_of(dialect, cipher).encryption
    assert found
    return found


@pytest.mark.parametrize("key, purpose, expected", [
    ("7cd451825d0450d235424e44ba6e78cc", ours.SIGNING, "0b7e9c5cac36c0f6ea9ab275298cedce"),
    ("b4546771b515f766a86735532dd6c4f0", ours.OPENING, "261b72350558f2e9dcf613070383edbf"),
    ("b4546771b515f766a86735532dd6c4f0", ours.SEALING, "8fe2b57ec34d2db5b1a9727f526bbdb5"),
])
def test_published_keys(key: str, purpose: ours.Purpose, expected: str) -> None:
    """Those that Microsoft's articles on signing and encryption at 3.0 have."""
    assert derived(bytes.fromhex(key), purpose.label, purpose.context).hex() == expected


@pytest.mark.parametrize("bits", [128, 256])
def test_keys_against_impacket(chooser: random.Random, bits: int) -> None:
    for _ in range(50):
        key, label, context = (chooser.randbytes(it) for it in (16, chooser.randrange(1, 20), 64))
        assert derived(key, label, context, bits) == theirs.derived(key, label, context, bits)


def test_the_hash() -> None:
    """It begins with 64 zeros, and each message goes on from what was there."""
    integrity, expected = PreauthIntegrity(), bytes(64)
    for message in (b"NEGOTIATE", b"", b"SESSION_SETUP"):
        integrity.add(message)
        expected = hashlib.sha512(expected + message).digest()
        assert integrity.value == expected
    other = integrity.fork()
    other.add(b"message")
    assert (integrity.value == expected, other.value == expected) == (True, False)


@pytest.mark.parametrize("message, expected", [
    ("", "bb1d6929e95937287fa37d129b756746"), ("6bc1bee22e409f96e93d7e117393172a", "070a16b46b4d4144f79bdd9dd04a287c")])
def test_the_other_package_of_cmac(message: str, expected: str) -> None:
    """RFC 4493, 4: what the server's signatures are compared with."""
    made = theirs.CMAC.new(bytes.fromhex("2b7e151628aed2a6abf7158809cf4f3c"), bytes.fromhex(message), ciphermod=theirs.AES)
    assert made.hexdigest() == expected


@pytest.mark.parametrize("data", MESSAGES, ids=["request", "answer", "cancel"])
@pytest.mark.parametrize("algorithm", Algorithm)
def test_a_signature(algorithm: Algorithm, data: bytes) -> None:
    signer = keys_of(Dialect.SMB_3_1_1, algorithm=algorithm).signer
    expected = theirs.signature(algorithm, theirs.derived(KEY, b"SMBSigningKey\0", INTEGRITY), data)
    made = signed(data, signer)
    assert made == data[:48] + expected + data[64:]
    assert (signer.signature(made), signer.signature(made[:-1] + b"x") == expected) == (expected, False)
    assert signer.is_by_number is (algorithm is Algorithm.AES_GMAC)


@pytest.mark.parametrize("dialect", [Dialect.SMB_3_0, Dialect.SMB_3_0_2])
def test_a_signature_of_3_0(dialect: Dialect) -> None:
    signer = keys_of(dialect).signer
    assert signer.signature(MESSAGES[0]) == theirs.signature(
        Algorithm.AES_CMAC, theirs.derived(KEY, b"SMB2AESCMAC\0", b"SmbSign\0"), MESSAGES[0])


@pytest.mark.parametrize("cipher", Cipher)
def test_what_is_sealed_and_opened(cipher: Cipher, chooser: random.Random) -> None:
    bits = 256 if cipher in (Cipher.AES_256_CCM, Cipher.AES_256_GCM) else 128
    sealing, opening = (theirs.derived(KEY, it, INTEGRITY, bits) for it in (b"SMBS2CCipherKey\0", b"SMBC2SCipherKey\0"))
    encryption = encryption_of(cipher)
    for length in (64, 65, 4096, 1 << 20):
        data = chooser.randbytes(length)
        frame = encryption.sealed(data)
        assert (session_of(frame), len(frame)) == (SESSION, SIZE + length)
        assert theirs.opened(cipher, sealing, frame) == data
        assert encryption.opened(theirs.sealed(cipher, opening, SESSION, chooser.randbytes(12), data)) == data


def test_what_is_sealed_at_3_0() -> None:
    encryption = encryption_of(Cipher.AES_128_CCM, Dialect.SMB_3_0_2)
    sealing, opening = (theirs.derived(KEY, b"SMB2AESCCM\0", it) for it in (b"ServerOut\0", b"ServerIn \0"))
    assert theirs.opened(Cipher.AES_128_CCM, sealing, encryption.sealed(MESSAGES[0])) == MESSAGES[0]
    assert encryption.opened(theirs.sealed(Cipher.AES_128_CCM, opening, SESSION, b"nonce", MESSAGES[1])) == MESSAGES[1]


@pytest.mark.parametrize("cipher", Cipher)
def test_any_damage_is_found(cipher: Cipher) -> None:
    opening = theirs.derived(KEY, b"SMBC2SCipherKey\0", INTEGRITY, 256 if cipher > Cipher.AES_128_GCM else 128)
    frame = theirs.sealed(cipher, opening, SESSION, b"nonce", MESSAGES[0])
    # (the nonce of CCM is 11 bytes of its field; all of it is guarded)
    for place in range(4, len(frame)):
        with pytest.raises(Unreadable):
            encryption_of(cipher).opened(frame[:place] + bytes([frame[place] ^ 1]) + frame[place + 1:])
    for length in range(len(frame)):
        with pytest.raises(Unreadable):
            session_of(frame[:length])
            encryption_of(cipher).opened(frame[:length])


@pytest.mark.parametrize("cipher", Cipher)
def test_no_nonce_comes_twice(cipher: Cipher) -> None:
    encryption = encryption_of(cipher)
    nonces = {struct.unpack_from("<16s", encryption.sealed(MESSAGES[0]), 20)[0] for _ in range(1000)}
    assert len(nonces) == 1000
