"""What guards the frames of a session, compared with impacket's AES-CMAC and pycryptodome's CCM and GCM; and what comes that was
changed on its way, which is always a fault, and always one of the tool's own."""
from __future__ import annotations

import hashlib
import random
import struct
from typing import Any

import pytest

pytest.importorskip("impacket", reason="there is no package impacket; tools/setup installs it")
pytest.importorskip("cryptography", reason="there is no package cryptography; tools/setup installs it")
# pylint: disable=wrong-import-position
from Cryptodome.Cipher import AES  # noqa: E402
from impacket import crypto  # noqa: E402
from smblease.drive.faults import DriveFault  # noqa: E402
from smblease.drive.guards import Frames, Sealing, SettingUp, Signing  # noqa: E402
from smblease.drive.negotiation import Agreed  # noqa: E402
from smblease.serve.dialects import Dialect  # noqa: E402
from smblease.serve.negotiate_contexts import Cipher  # noqa: E402
from smblease.serve.session_keys import SessionKeys, session_keys  # noqa: E402

SESSION, NUMBER, UNASKED = 0x1122334455667788, 7, 0xFFFFFFFFFFFFFFFF
KEY, INTEGRITY = bytes(range(16)), bytes(range(64))
PENDING, IS_SIGNED = 0x103, 8
# labels of 3.1.1, and labels and contexts of 3.0 (3.1.4.2)
SIGNS = {Dialect.SMB_3_1_1: (b"SMBSigningKey\0", INTEGRITY), Dialect.SMB_3_0: (b"SMB2AESCMAC\0", b"SmbSign\0")}
CLIENT_SEALS = {Dialect.SMB_3_1_1: (b"SMBC2SCipherKey\0", INTEGRITY), Dialect.SMB_3_0: (b"SMB2AESCCM\0", b"ServerIn \0")}
SERVER_SEALS = {Dialect.SMB_3_1_1: (b"SMBS2CCipherKey\0", INTEGRITY), Dialect.SMB_3_0: (b"SMB2AESCCM\0", b"ServerOut\0")}
ENCRYPTIONS = [(Dialect.SMB_3_0, Cipher.AES_128_CCM), (Dialect.SMB_3_1_1, Cipher.AES_128_CCM),
               (Dialect.SMB_3_1_1, Cipher.AES_128_GCM)]
DIALECTS = pytest.mark.parametrize("dialect", SIGNS, ids=[it.name for it in SIGNS])
ENCRYPTED = pytest.mark.parametrize(("dialect", "cipher"), ENCRYPTIONS, ids=[f"{it[0].name}-{it[1].name}" for it in ENCRYPTIONS])


def message(chance: random.Random, number: int = NUMBER, status: int = 0, flags: int = 1) -> bytes:
    """With a header of 2.2.1.2 and some body."""
    return struct.pack("<4sHHLHHLLQLLQ16s", b"\xfeSMB", 64, 1, status, 8, 1, flags, 0, number, 0, 5, SESSION,
                       chance.randbytes(16)) + chance.randbytes(chance.randrange(100))


def keys(dialect: Dialect, cipher: Cipher = Cipher.AES_128_CCM) -> SessionKeys:
    return session_keys(Agreed(dialect, cipher, b""), SESSION, KEY, INTEGRITY, is_client=True)


def derived(purpose: tuple[bytes, bytes]) -> bytes:
    return bytes(crypto.KDF_CounterMode(KEY, *purpose, 128))


def signed(data: bytes, dialect: Dialect) -> bytes:
    """As the peer signs it."""
    flags = struct.unpack_from("<L", data, 16)[0] | IS_SIGNED
    flagged = data[:16] + struct.pack("<L", flags) + data[20:48] + bytes(16) + data[64:]
    return flagged[:48] + bytes(crypto.AES_CMAC(derived(SIGNS[dialect]), flagged, len(flagged))) + flagged[64:]


def changed(data: bytes, bit: int) -> bytes:
    return data[:bit // 8] + bytes([data[bit // 8] ^ 1 << bit % 8]) + data[bit // 8 + 1:]


def cipher_of(cipher: Cipher, key: bytes, nonce: bytes) -> Any:
    if cipher is Cipher.AES_128_CCM:
        return AES.new(key, AES.MODE_CCM, nonce[:11])
    return AES.new(key, AES.MODE_GCM, nonce[:12])


def sealed(data: bytes, dialect: Dialect, cipher: Cipher, session: int = SESSION) -> bytes:
    """As a server encrypts it (2.2.41)."""
    nonce = bytes(range(100, 111 if cipher is Cipher.AES_128_CCM else 112)).ljust(16, b"\0")
    guarded = nonce + struct.pack("<LHHQ", len(data), 0, 1, session)
    made = cipher_of(cipher, derived(SERVER_SEALS[dialect]), nonce)
    made.update(guarded)
    text, tag = made.encrypt_and_digest(data)
    return b"\xfdSMB" + bytes(tag) + guarded + bytes(text)


def sealing(dialect: Dialect, cipher: Cipher) -> Sealing:
    encryption = keys(dialect, cipher).encryption
    assert encryption
    return Sealing(SESSION, encryption)


def refuses(guard: Signing | Sealing, frame: bytes) -> None:
    with pytest.raises(DriveFault):
        guard.incoming(frame)


@DIALECTS
def test_what_is_signed(dialect: Dialect, chooser: random.Random) -> None:
    guard = Signing(keys(dialect).signer)
    for _ in range(20):
        data = message(chooser, flags=0)
        assert guard.outgoing(data) == signed(data, dialect)


@DIALECTS
def test_answers_that_are_signed(dialect: Dialect, chooser: random.Random) -> None:
    """One that is changed in any bit is refused, and one that isn't signed."""
    guard = Signing(keys(dialect).signer)
    frame = signed(message(chooser), dialect)
    assert guard.incoming(frame) == frame
    for bit in range(8 * len(frame)):
        refuses(guard, changed(frame, bit))
    refuses(guard, message(chooser))
    refuses(guard, sealed(message(chooser), dialect, Cipher.AES_128_CCM))
    for unsigned in (message(chooser, UNASKED), message(chooser, status=PENDING)):
        assert guard.incoming(unsigned) == unsigned


@ENCRYPTED
def test_what_is_encrypted(dialect: Dialect, cipher: Cipher, chooser: random.Random) -> None:
    guard, nonces = sealing(dialect, cipher), set()
    for _ in range(20):
        data = message(chooser, flags=0)
        frame = guard.outgoing(data)
        tag, nonce, length, flags, session = struct.unpack_from("<4x16s16sL2xHQ", frame)
        made = cipher_of(cipher, derived(CLIENT_SEALS[dialect]), nonce)
        made.update(frame[20:52])
        assert made.decrypt_and_verify(frame[52:], tag) == data
        assert (frame[:4], length, flags, session) == (b"\xfdSMB", len(data), 1, SESSION)
        nonces.add(nonce)
    assert len(nonces) == 20


@ENCRYPTED
def test_answers_that_are_encrypted(dialect: Dialect, cipher: Cipher, chooser: random.Random) -> None:
    """One that is changed in any bit is refused, cut short, or of another session; so is one that is signed at most."""
    guard, data = sealing(dialect, cipher), message(chooser)
    frame = sealed(data, dialect, cipher)
    assert guard.incoming(frame) == data
    for bit in range(8 * len(frame)):
        refuses(guard, changed(frame, bit))
    for length in range(len(frame)):
        refuses(guard, frame[:length])
    refuses(guard, sealed(data, dialect, cipher, SESSION + 1))
    refuses(guard, signed(data, dialect))
    refuses(guard, sealed(data[:63], dialect, cipher))
    notice = message(chooser, UNASKED)
    assert guard.incoming(notice) == notice


@pytest.mark.parametrize("beginning", [b"", b"\xfdSMB", b"\xfeSMB", b"\xfcSMB"])
def test_any_bytes(beginning: bytes, chooser: random.Random) -> None:
    guards: list[Signing | Sealing] = [Signing(keys(Dialect.SMB_3_1_1).signer), *(sealing(*it) for it in ENCRYPTIONS)]
    for _ in range(300):
        frame = beginning + chooser.randbytes(chooser.randrange(200))
        for guard in guards:
            refuses(guard, frame)


class Stream:
    """A stream with these frames to come, as impacket has it."""

    def __init__(self, *frames: bytes) -> None:
        self.sent: list[bytes] = []
        self._frames = list(frames)
        self._last = b""

    def send_packet(self, data: bytes) -> None:
        self.sent.append(data)

    def recv_packet(self, _: float) -> "Stream":
        self._last = self._frames.pop(0)
        return self

    def get_trailer(self) -> bytes:
        return self._last


def test_hash_of_what_sets_a_session_up() -> None:
    """Of all messages but the last (3.2.5.2, 3.2.5.3)."""
    said = [b"negotiate", b"its answer", b"session setup", b"more is needed", b"session setup again", b"done"]
    frames = Frames(Stream(*said[1::2]))
    for one in said[::2]:
        frames.send_packet(one)
        frames.recv_packet(1)
    expected = bytes(64)
    for one in said[:-1]:
        expected = hashlib.sha512(expected + one).digest()
    assert isinstance(frames.guard, SettingUp) and frames.guard.integrity.value == expected
    assert (frames.bare.sent, frames.last) == (said[::2], b"done")
