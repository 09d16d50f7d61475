"""The tokens of SPNEGO and the messages of NTLM that serve/ makes and reads, compared with impacket's."""
from __future__ import annotations

import random
from collections.abc import Callable

import pytest
from hypothesis import given
from hypothesis import strategies as some

from smblease.drive.headers import Unreadable
from smblease.serve import ntlm, spnego
from tests import needs

theirs = pytest.importorskip("impacket.ntlm", reason=f"there is no package impacket; {needs.INSTALLS}")
tokens = pytest.importorskip("impacket.spnego")
KERBEROS = tokens.TypesMech["KRB5 - Kerberos 5"]
LENGTHS = (1, 100, 127, 128, 255, 256, 70000)
NONCE = bytes(range(8))
MOMENT = 0x01BF53EB256D4000
RANDOM = 1000


def initial(mechanisms: list[bytes], message: bytes) -> bytes:
    token = tokens.SPNEGO_NegTokenInit()
    token["MechTypes"] = mechanisms
    if message:
        token["MechToken"] = message
    return bytes(token.getData())


def response(message: bytes, state: int = -1, names_mechanism: bool = False) -> bytes:
    token = tokens.SPNEGO_NegTokenResp()
    if state >= 0:
        token["NegState"] = bytes((state,))
    if names_mechanism:
        token["SupportedMech"] = spnego.NTLM
    if message or state < 0:
        token["ResponseToken"] = message
    return bytes(token.getData())


def fields(*parts: tuple[int, bytes]) -> bytes:
    """A sequence of numbered fields."""
    return spnego.element(0x30, b"".join(spnego.element(tag, content) for tag, content in parts))


def octets(data: bytes) -> bytes:
    return spnego.element(4, data)


MECHANISM = spnego.element(0x30, spnego.element(6, spnego.NTLM))
WITH_FLAGS = spnego.element(0x60, spnego.element(6, spnego.SPNEGO) + spnego.element(0xA0, fields(
    (0xA0, MECHANISM), (0xA1, b"\x03\x02\x01\x06"), (0xA2, octets(b"one")))))
WITH_MIC = spnego.element(0xA1, fields((0xA2, octets(b"two")), (0xA3, octets(bytes(16)))))


@pytest.mark.parametrize("made, expected", [
    pytest.param(spnego.offered(), initial([spnego.NTLM], b""), id="offered"),
    pytest.param(spnego.wrapped(b"", spnego.ACCEPTED, False), response(b"", 0), id="accepted"),
    pytest.param(spnego.wrapped(b"", spnego.REQUEST_MIC, True), response(b"", 3, True), id="request_mic"),
    *(pytest.param(spnego.wrapped(bytes(it), spnego.INCOMPLETE, True), response(bytes(it), 1, True), id=f"incomplete-{it}")
      for it in LENGTHS),
])
def test_a_token_that_is_made(made: bytes, expected: bytes) -> None:
    assert made == expected


@pytest.mark.parametrize("length", LENGTHS)
def test_the_message_of_a_token(length: int) -> None:
    text = random.Random(length).randbytes(length)
    token = spnego.unwrapped(initial([spnego.NTLM, KERBEROS], text))
    kerberos = spnego.element(6, KERBEROS)
    assert token == spnego.Token(text, spnego.element(0x30, spnego.element(6, spnego.NTLM) + kerberos))
    assert spnego.unwrapped(response(text)) == spnego.Token(text)


@pytest.mark.parametrize("token, expected", [
    pytest.param(WITH_FLAGS, b"one", id="flags_before_its_message"), pytest.param(WITH_MIC, b"two", id="a_mic_after_its_message"),
    pytest.param(initial([KERBEROS, spnego.NTLM], b"three"), b"", id="another_mechanism"),
    pytest.param(initial([spnego.NTLM], b""), b"", id="no_message"), pytest.param(b"", b"", id="nothing"),
    pytest.param(b"four", b"", id="no_token"),
])
def test_an_odd_token(token: bytes, expected: bytes) -> None:
    assert spnego.unwrapped(token).message == expected


def test_the_mic_of_a_token() -> None:
    assert spnego.unwrapped(WITH_MIC).mic == bytes(16)
    assert spnego.unwrapped(spnego.wrapped(b"five", spnego.ACCEPTED, False, b"mic")) == spnego.Token(b"five", mic=b"mic")


def negotiate(flags: int) -> bytes:
    message = theirs.NTLMAuthNegotiate()
    message["flags"] = flags
    return bytes(message.getData())


def test_a_challenge() -> None:
    """A CHALLENGE_MESSAGE as impacket reads it, and as it writes it again."""
    data = ntlm.challenge(negotiate(0xFDFFFFFF), NONCE, MOMENT)
    message = theirs.NTLMAuthChallenge()
    message.fromString(data)
    pairs, name = theirs.AV_PAIRS(message["TargetInfoFields"]), ntlm.NAME.encode("utf-16le")
    assert (message["flags"], message["challenge"], message["reserved"]) == (0xE28A8237, NONCE, bytes(8))
    assert (message["domain_name"], message["domain_max_len"], message["Version"]) == (name, len(name), ntlm.VERSION)
    assert message["TargetInfoFields_max_len"] == len(message["TargetInfoFields"])
    assert [pairs[it] for it in (1, 2, 3, 4)] == [(len(name), name)] * 4 and pairs[7] == (8, MOMENT.to_bytes(8, "little"))
    assert bytes(message.getData()) == data


def test_flags_that_nobody_asks_for() -> None:
    assert int.from_bytes(ntlm.challenge(negotiate(0), NONCE, MOMENT)[20:24], "little") == 0x02820204


def authenticate(name: str) -> bytes:
    message = theirs.NTLMAuthChallengeResponse(name, "secret", NONCE)
    message["domain_name"], message["host_name"] = "DOMAIN".encode("utf-16le"), "HOST".encode("utf-16le")
    return bytes(message.getData())


def test_the_name_of_a_user() -> None:
    assert ntlm.user_name(authenticate("s\u00f6mebody")) == "s\u00f6mebody"


def user_name(data: bytes) -> object:
    return ntlm.user_name(data)


def challenge(data: bytes) -> object:
    return ntlm.challenge(data, NONCE, MOMENT)


def unwrapped(data: bytes) -> object:
    return spnego.unwrapped(data)


READ = [pytest.param(unwrapped, initial([spnego.NTLM], bytes(300)), id="initial_token"),
        pytest.param(unwrapped, response(bytes(300), 1, True), id="response_token"),
        pytest.param(user_name, authenticate("somebody"), id="authenticate"),
        pytest.param(challenge, negotiate(1), id="negotiate")]


def is_read_or_refused(read: Callable[[bytes], object], data: bytes) -> None:
    try:
        read(data)
    except Unreadable:
        return


@pytest.mark.parametrize("read, token", READ)
def test_a_token_cut_anywhere(read: Callable[[bytes], object], token: bytes) -> None:
    for length in range(len(token)):
        is_read_or_refused(read, token[:length])


@pytest.mark.parametrize("read, token", READ)
def test_a_token_changed_at_random(read: Callable[[bytes], object], token: bytes, chooser: random.Random) -> None:
    for _ in range(4 * RANDOM):
        changed = bytearray(token)
        for _ in range(chooser.choice((1, 2, 5))):
            changed[chooser.randrange(min(len(changed), 80))] = chooser.randrange(256)
        is_read_or_refused(read, bytes(changed))


@given(some.binary(max_size=64))
def test_any_bytes(data: bytes) -> None:
    for read in (unwrapped, user_name, challenge):
        is_read_or_refused(read, data)
