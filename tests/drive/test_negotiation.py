"""What a client of dialects of 3 offers, as impacket and the standard's layout read it, and answers of any kind."""
from __future__ import annotations

import random
import struct
from collections.abc import Sequence

import pytest

pytest.importorskip("impacket", reason="there is no package impacket; tools/setup installs it")
# pylint: disable=wrong-import-position
from impacket import smb3structs  # noqa: E402
from smblease.drive.headers import Message, Unreadable  # noqa: E402
from smblease.drive.negotiation import agreed_in, negotiate_request, validated, validation_request  # noqa: E402
from smblease.drive.place import DRIVEN  # noqa: E402
from smblease.serve.dialects import Dialect  # noqa: E402
from smblease.serve.negotiate_contexts import Cipher  # noqa: E402
from smblease.serve.status_error import StatusError  # noqa: E402

GUID = bytes(range(16))
OFFERS = [DRIVEN, (Dialect.SMB_3_0,), (Dialect.SMB_3_0_2,), (Dialect.SMB_3_1_1,), (Dialect.SMB_2_1, Dialect.SMB_3_1_1)]
PREAUTH, ENCRYPTION, IS_ENCRYPTION = 1, 2, 0x40


def listed(data: bytes, place: int, count: int) -> list[tuple[int, bytes]]:
    """Contexts as 2.2.3.1 lays them out, each at a multiple of eight."""
    found = []
    for _ in range(count):
        assert place % 8 == 0
        kind, length = struct.unpack_from("<HH", data, place)
        found.append((kind, data[place + 8:place + 8 + length]))
        place += 8 + length + -length % 8
    return found


@pytest.mark.parametrize("offer", OFFERS, ids=[" ".join(it.name for it in offer) for offer in OFFERS])
def test_what_is_offered(offer: Sequence[Dialect]) -> None:
    body = negotiate_request(GUID, offer)
    read = smb3structs.SMB2Negotiate(body[:36 + 2 * len(offer)])
    assert [read["Dialects"][at] for at in range(read["DialectCount"])] == list(map(int, offer))
    # leases, large reads and writes, encryption
    assert (read["ClientGuid"], read["SecurityMode"], read["Capabilities"]) == (GUID, 1, 2 | 4 | 0x40)
    place, count, reserved = struct.unpack_from("<LHH", body, 28)
    if Dialect.SMB_3_1_1 not in offer:
        assert (place, count, reserved, len(body)) == (0, 0, 0, 36 + 2 * len(offer))
        return
    contexts = dict(listed(bytes(64) + body, place, count))
    assert list(contexts) == [PREAUTH, ENCRYPTION]
    assert (contexts[PREAUTH][:6], len(contexts[PREAUTH])) == (struct.pack("<HHH", 1, 32, 1), 38)
    assert contexts[ENCRYPTION] == struct.pack("<HHH", 2, Cipher.AES_128_GCM, Cipher.AES_128_CCM)
    assert negotiate_request(GUID, offer) != body


def answer(dialect: int, capabilities: int = 0, contexts: Sequence[tuple[int, bytes]] = ()) -> bytes:
    text, place = b"", 64 + 64
    for kind, data in contexts:
        text += bytes(-len(text) % 8) + struct.pack("<HHL", kind, len(data), 0) + data
    body = struct.pack("<HHHH16sLLLLQQHHL", 65, 3, dialect, len(contexts), GUID, capabilities, 1, 2, 3, 4, 5, 128, 0,
                       place if contexts else 0)
    return b"\xfeSMB" + bytes(60) + body + text


def chosen(cipher: int) -> list[tuple[int, bytes]]:
    return [(PREAUTH, struct.pack("<HHH", 1, 3, 1) + b"abc"), (ENCRYPTION, struct.pack("<HH", 1, cipher))]


CIPHERS = [
    (0x0210, IS_ENCRYPTION, (), None), (0x0300, 0, (), None), (0x0300, IS_ENCRYPTION, (), Cipher.AES_128_CCM),
    (0x0302, IS_ENCRYPTION, (), Cipher.AES_128_CCM), (0x0311, IS_ENCRYPTION, chosen(0)[:1], None), (0x0311, 0, chosen(0), None),
    (0x0311, 0, chosen(1), Cipher.AES_128_CCM), (0x0311, 0, chosen(2), Cipher.AES_128_GCM), (0x0311, 0, chosen(4), None),
    (0x0311, 0, [(ENCRYPTION, b"\1\0\2")], None),
]


@pytest.mark.parametrize(("dialect", "capabilities", "contexts", "cipher"), CIPHERS)
def test_what_is_agreed(dialect: int, capabilities: int, contexts: Sequence[tuple[int, bytes]], cipher: Cipher | None) -> None:
    found = agreed_in(Message(answer(dialect, capabilities, contexts)))
    assert (int(found.dialect), found.cipher) == (dialect, cipher)
    assert found.said == struct.pack("<L16sHH", capabilities, GUID, 3, dialect)


def test_answers_of_any_kind(chooser: random.Random) -> None:
    """Each has a dialect, or is refused in a way that ends the connection."""
    whole = answer(0x0311, 0, chosen(2))
    for _ in range(5000):
        data = bytearray(whole[:chooser.choice([len(whole), chooser.randrange(65, len(whole))])])
        for _ in range(chooser.randrange(4)):
            # (the numbers that lead to contexts, and their lengths, more often than others)
            place = chooser.choice([70, 124, 125, 126, 127, 130, 131, chooser.randrange(64, len(data))])
            if place < len(data):
                data[place] = chooser.randrange(256)
        try:
            assert agreed_in(Message(bytes(data))).cipher in (None, Cipher.AES_128_GCM, Cipher.AES_128_CCM)
        except (ValueError, Unreadable, StatusError):
            pass


def test_what_is_asked_once_more() -> None:
    """FSCTL_VALIDATE_NEGOTIATE_INFO in an IOCTL (2.2.31, 2.2.31.4), and its answer (2.2.32)."""
    body = validation_request(GUID, DRIVEN)
    read = smb3structs.SMB2Ioctl(body)
    assert (read["CtlCode"], read["Flags"], read["InputOffset"], read["InputCount"]) == (0x00140204, 1, 64 + 56, 24 + 2 * 4)
    assert (read["MaxOutputResponse"], bytes(read["FileID"].getData())) == (24, b"\xff" * 16)
    assert read["Buffer"] == struct.pack("<L16sHH4H", 0x46, GUID, 1, 4, 0x0210, 0x0300, 0x0302, 0x0311)
    said = struct.pack("<L16sHH", 0x46, GUID, 1, 0x0300)
    fixed = struct.pack("<HHL16sLLLLLL", 49, 0, 0x00140204, b"\xff" * 16, 112, 0, 112, len(said), 0, 0)
    assert validated(Message(b"\xfeSMB" + bytes(60) + fixed + said)) == said
    with pytest.raises(Unreadable):
        validated(Message(b"\xfeSMB" + bytes(60) + fixed + said[:-1]))
