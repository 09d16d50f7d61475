"""Negotiate contexts of 3.1.1 that are read, chosen from, and refused (3.3.5.4)."""
from __future__ import annotations

import random

import pytest
from hypothesis import given
from hypothesis import strategies as some

from smblease import Status
from smblease.drive.headers import Message, Unreadable
from smblease.serve.negotiate_contexts import NO_HASH_OVERLAP, Chosen, choose
from smblease.serve.negotiate_contexts import Cipher as Found
from smblease.serve.negotiate_contexts import SigningAlgorithm as Signing
from smblease.serve.status_error import StatusError
from tests.serve.negotiating import ENCRYPTIONS, PREAUTH, SIGNINGS, Algorithm, Asking, Cipher, Context, joined, listed, preauth
from tests.serve.requests import header

GOOD = (preauth(1), listed(ENCRYPTIONS, 2, 1), listed(SIGNINGS, 2, 1))


def request(asking: Asking, text: bytes | None = None, count: int | None = None) -> Message:
    return Message(header(0, 0, 0, 0) + asking.body(text, count)[1])


def chosen(*contexts: Context) -> Chosen:
    return choose(request(Asking(contexts=contexts)))


def refusal(*contexts: Context) -> int:
    with pytest.raises(StatusError) as refused:
        chosen(*contexts)
    return refused.value.status


@pytest.mark.parametrize("contexts, cipher, algorithm", [
    pytest.param(GOOD, Found.AES_128_GCM, Signing.AES_GMAC, id="the first of each"),
    pytest.param((preauth(1),), None, None, id="no others"),
    pytest.param((preauth(7, 1), listed(ENCRYPTIONS, 9, *Cipher), listed(SIGNINGS, 77, Algorithm.HMAC_SHA256)),
                 Found.AES_128_CCM, Signing.HMAC_SHA256, id="unknown numbers"),
    pytest.param((preauth(1, salt=b""), listed(ENCRYPTIONS, 77), listed(SIGNINGS, 77)), None, None, id="nothing in common"),
    pytest.param(((0x100, b"transport"), *GOOD, (3, b""), (5, b"\xff" * 3), (5, b"")), Found.AES_128_GCM, Signing.AES_GMAC,
                 id="unknown contexts, some of them twice"),
])
def test_what_is_chosen(contexts: tuple[Context, ...], cipher: Found | None, algorithm: Signing | None) -> None:
    found = chosen(*contexts)
    assert (found.cipher, found.algorithm) == (cipher, algorithm)
    assert found.has_ciphers is any(kind == ENCRYPTIONS for kind, _ in contexts)


@pytest.mark.parametrize("contexts, status", [
    pytest.param((), Status.INVALID_PARAMETER, id="none"),
    pytest.param(GOOD[1:], Status.INVALID_PARAMETER, id="no hash"),
    pytest.param((preauth(1), preauth(1)), Status.INVALID_PARAMETER, id="two of hashes"),
    pytest.param((*GOOD, GOOD[1]), Status.INVALID_PARAMETER, id="two of ciphers"),
    pytest.param((*GOOD, GOOD[2]), Status.INVALID_PARAMETER, id="two of signing"),
    pytest.param((preauth(),), Status.INVALID_PARAMETER, id="an empty list of hashes"),
    pytest.param((preauth(1), listed(ENCRYPTIONS)), Status.INVALID_PARAMETER, id="an empty list of ciphers"),
    pytest.param((preauth(1), listed(SIGNINGS)), Status.INVALID_PARAMETER, id="an empty list of signing"),
    pytest.param((preauth(2),), NO_HASH_OVERLAP, id="another hash"),
    pytest.param(((PREAUTH, b"\1\0\x21\0\1\0" + bytes(32)),), Status.INVALID_PARAMETER, id="a salt that isn't there"),
    pytest.param(((PREAUTH, b"\1\0"),), Status.INVALID_PARAMETER, id="half a context"),
    pytest.param((preauth(1), (ENCRYPTIONS, b"\2\0\1\0")), Status.INVALID_PARAMETER, id="a cipher that isn't there"),
])
def test_what_is_refused(contexts: tuple[Context, ...], status: int) -> None:
    assert refusal(*contexts) == status


def test_where_contexts_are() -> None:
    """They lie in the message, behind the dialects, and begin at multiples of eight."""
    whole = joined(GOOD)
    for text, count in ((whole[:-1], 3), (whole, 4), (b"", 1), (whole[:7], 1), (whole, 65535)):
        with pytest.raises(StatusError):
            choose(request(Asking(), text, count))
    command = bytearray(request(Asking(contexts=GOOD)).data)
    for place in (0, 64, 100, 105, 0xFFFFFFF8):
        command[92:96] = place.to_bytes(4, "little")
        with pytest.raises((StatusError, Unreadable)):
            choose(Message(bytes(command)))


def is_answered(text: bytes, count: int) -> None:
    try:
        choose(request(Asking(), text, count))
    except (StatusError, Unreadable):
        return


@given(some.binary(max_size=200), some.integers(0, 65535))
def test_any_bytes(text: bytes, count: int) -> None:
    is_answered(text, count)


def test_contexts_changed_at_random(chooser: random.Random) -> None:
    whole = joined(GOOD)
    for _ in range(3000):
        text = bytearray(whole[:chooser.randrange(1, len(whole) + 1)])
        for _ in range(chooser.choice((1, 2, 5))):
            text[chooser.randrange(len(text))] = chooser.choice((0, 1, 0xFF, chooser.randrange(256)))
        is_answered(bytes(text), chooser.choice((1, 2, 3, 4, 65535)))
