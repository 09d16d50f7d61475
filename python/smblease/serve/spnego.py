"""The tokens of SPNEGO that NTLM is wrapped in (RFC 4178, 4.2; RFC 2743, 3.1), in DER.

impacket has these too. They stand here so that guests are served by Python's standard library alone."""
from __future__ import annotations

from collections.abc import Iterator
from typing import NamedTuple

from smblease.drive.headers import Unreadable

IDENTIFIER, OCTETS, ENUMERATED, SEQUENCE = 0x06, 0x04, 0x0A, 0x30
INITIAL = 0x60
# NegTokenInit and NegTokenResp are choices [0] and [1]; the fields of each are numbered likewise.
FIELD = 0xA0
RESPONSE = FIELD + 1
SPNEGO = bytes((0x2B, 6, 1, 5, 5, 2))
NTLM = bytes((0x2B, 6, 1, 4, 1, 0x82, 0x37, 2, 2, 10))
ACCEPTED, INCOMPLETE, REQUEST_MIC = 0, 1, 3
MECHANISMS = STATE = 0
SUPPORTED = 1
TOKEN = 2
MIC = 3


class Token(NamedTuple):
    """What a token has: a message; of a first token the list of mechanisms, as it stands there; and a MIC of that list."""

    message: bytes
    mechanisms: bytes = b""
    mic: bytes = b""


def element(tag: int, content: bytes) -> bytes:
    length = len(content)
    if length < 0x80:
        return bytes((tag, length)) + content
    digits = length.to_bytes((length.bit_length() + 7) // 8, "big")
    return bytes((tag, 0x80 | len(digits))) + digits + content


def elements(data: bytes) -> Iterator[tuple[int, bytes]]:
    """The tags and contents of elements that follow one another. What isn't whole is Unreadable."""
    while data:
        if len(data) < 2:
            raise Unreadable
        start, length = 2, data[1]
        if length & 0x80:
            start += length & 0x7F
            if not 2 < start <= min(6, len(data)):
                raise Unreadable
            length = int.from_bytes(data[2:start], "big")
        if start + length > len(data):
            raise Unreadable
        yield data[0], data[start:start + length]
        data = data[start + length:]


def inside(data: bytes, tag: int) -> bytes:
    """The content of the first element, which has this tag."""
    for found, content in elements(data):
        if found == tag:
            return content
        break
    raise Unreadable


def offered() -> bytes:
    """The server's first token, in its answer to NEGOTIATE: NTLM is the only mechanism."""
    mechanisms = element(FIELD + MECHANISMS, element(SEQUENCE, element(IDENTIFIER, NTLM)))
    return element(INITIAL, element(IDENTIFIER, SPNEGO) + element(FIELD, element(SEQUENCE, mechanisms)))


def unwrapped(token: bytes) -> Token:
    """A client's token; with no message where there is none, or where the client would rather have another mechanism."""
    mechanisms = b""
    if token[:1] == bytes((INITIAL,)):
        parts = dict(elements(inside(token, INITIAL)))
        if parts.get(IDENTIFIER) != SPNEGO or FIELD not in parts:
            raise Unreadable
        fields = dict(elements(inside(parts[FIELD], SEQUENCE)))
        mechanisms = fields.get(FIELD + MECHANISMS, b"")
        if inside(inside(mechanisms, SEQUENCE), IDENTIFIER) != NTLM:
            return Token(b"", mechanisms)
    elif token[:1] == bytes((RESPONSE,)):
        fields = dict(elements(inside(inside(token, RESPONSE), SEQUENCE)))
    else:
        return Token(b"")
    message, mic = (inside(fields[it], OCTETS) if it in fields else b"" for it in (FIELD + TOKEN, FIELD + MIC))
    return Token(message, mechanisms, mic)


def wrapped(message: bytes, state: int, names_mechanism: bool, mic: bytes = b"") -> bytes:
    fields = element(FIELD + STATE, element(ENUMERATED, bytes((state,))))
    if names_mechanism:
        fields += element(FIELD + SUPPORTED, element(IDENTIFIER, NTLM))
    if message:
        fields += element(FIELD + TOKEN, element(OCTETS, message))
    if mic:
        fields += element(FIELD + MIC, element(OCTETS, mic))
    return element(RESPONSE, element(SEQUENCE, fields))
