"""NTLM within SPNEGO, as far as a server needs it: guests, and a user whose password named_user checks.

impacket has these messages too. They stand here so that guests are served by Python's standard library alone."""
from __future__ import annotations

import struct
from typing import TYPE_CHECKING

from smblease import Status
from smblease.drive.headers import Unreadable
from smblease.serve import spnego
from smblease.serve.password_brake import PasswordBrake
from smblease.serve.status_error import StatusError

if TYPE_CHECKING:
    from smblease.serve.chance import Chance
    from smblease.serve.named_user import NamedUser

NAME = "LEASECHECK"
SIGNATURE = b"NTLMSSP\0"
NEGOTIATE, CHALLENGE, AUTHENTICATE = 1, 2, 3
# The fixed parts of messages, without the version (MS-NLMP 2.2.1): of a client's as far as they have to be there.
NEGOTIATE_SIZE, AUTHENTICATE_SIZE = 32, 64
USER_PLACE, AUTHENTICATE_FLAGS = 36, 60
HEAD = struct.Struct("<8sLHHLL8s8xHHL8s")
VERSION = bytes((6, 1, 0, 0, 0, 0, 0, 15))
# Flags (2.2.2.5)
UNICODE, OEM, REQUEST_TARGET, SIGN, SEAL, PLAIN = 0x1, 0x2, 0x4, 0x10, 0x20, 0x200
ALWAYS_SIGN, IS_SERVER, EXTENDED_SECURITY, TARGET_INFO = 0x8000, 0x20000, 0x80000, 0x800000
HAS_VERSION, LONG_KEY, KEY_EXCHANGE, SHORT_KEY = 0x2000000, 0x20000000, 0x40000000, 0x80000000
KEPT = SHORT_KEY | LONG_KEY | KEY_EXCHANGE | EXTENDED_SECURITY | UNICODE | OEM | SIGN | ALWAYS_SIGN | SEAL
ADDED = HAS_VERSION | TARGET_INFO | IS_SERVER | PLAIN | REQUEST_TARGET
# What the server says of itself (2.2.2.1)
END, COMPUTER, DOMAIN, DNS_COMPUTER, DNS_DOMAIN, TIME = 0, 1, 2, 3, 4, 7


class Authentication:
    """The messages of one authentication. `owner` is who proved to be there; `key` that of a session that may be signed."""

    def __init__(self, user: NamedUser | None, has_guests: bool, brake: PasswordBrake, address: str, chance: Chance) -> None:
        self._user = user
        self._has_guests = has_guests
        self._chance = chance
        self._brake, self._address = brake, address
        self._negotiate = self._challenge = self._mechanisms = b""
        self.owner = ""
        self.key: bytes | None = None
        self.is_over = False

    @property
    def kept(self) -> int:
        """The bytes that it has in memory."""
        return len(self._negotiate) + len(self._challenge) + len(self._mechanisms)

    def reply(self, data: bytes) -> bytes:
        """The server's next message. What can't be read is Unreadable."""
        is_wrapped = data[:1] != SIGNATURE[:1]
        token = spnego.unwrapped(data) if is_wrapped else spnego.Token(data)
        self._mechanisms = self._mechanisms or token.mechanisms
        message = token.message
        if not message.startswith(SIGNATURE):
            return spnego.wrapped(b"", spnego.REQUEST_MIC, True)
        kind = int.from_bytes(message[8:12], "little")
        if kind == NEGOTIATE:
            self._negotiate, self._challenge = message, challenge(message, self._chance.take(8), self._chance.now())
            return spnego.wrapped(self._challenge, spnego.INCOMPLETE, True) if is_wrapped else self._challenge
        if kind != AUTHENTICATE or not self._challenge:
            raise StatusError(Status.INVALID_PARAMETER)
        self._authenticate(message)
        mic = self._mic(token)
        self.is_over = True
        return spnego.wrapped(b"", spnego.ACCEPTED, False, mic) if is_wrapped else b""

    def _authenticate(self, message: bytes) -> None:
        name = user_name(message).lower()
        if self._user and name == self._user.name.lower():
            self._brake.check(self._address)
            self.owner, self.key = f"user {name}", self._user.key(self._negotiate, self._challenge, message)
        elif self._has_guests:
            self.owner = f"guest {name}"
            return
        if self.key is None:
            self._brake.failed(self._address)
            raise StatusError(Status.LOGON_FAILURE)

    def _mic(self, token: spnego.Token) -> bytes:
        """The server's mechListMIC, where the client sent one (RFC 4178, 5)."""
        if self._user is None or self.key is None or not token.mic:
            return b""
        flags = int.from_bytes(token.message[AUTHENTICATE_FLAGS:AUTHENTICATE_FLAGS + 4], "little")
        if self._user.mic(self.key, flags, self._mechanisms, "Client") != token.mic:
            raise StatusError(Status.LOGON_FAILURE)
        return self._user.mic(self.key, flags, self._mechanisms, "Server")


def challenge(negotiate: bytes, nonce: bytes, moment: int) -> bytes:
    """The answer to a NEGOTIATE_MESSAGE (2.2.1.1): a CHALLENGE_MESSAGE (2.2.1.2)."""
    if len(negotiate) < NEGOTIATE_SIZE:
        raise Unreadable
    flags = int.from_bytes(negotiate[12:16], "little")
    name = NAME.encode("utf-16le")
    pairs = [(it, name) for it in (COMPUTER, DNS_COMPUTER, DOMAIN, DNS_DOMAIN)]
    pairs += [(TIME, moment.to_bytes(8, "little")), (END, b"")]
    target = b"".join(struct.pack("<HH", kind, len(value)) + value for kind, value in pairs)
    head = HEAD.pack(SIGNATURE, CHALLENGE, len(name), len(name), HEAD.size, flags & KEPT | ADDED, nonce, len(target), len(target),
                     HEAD.size + len(name), VERSION)
    return head + name + target


def user_name(authenticate: bytes) -> str:
    """The UserName of an AUTHENTICATE_MESSAGE (2.2.1.3)."""
    if len(authenticate) < AUTHENTICATE_SIZE:
        raise Unreadable
    length, _, start = struct.unpack_from("<HHL", authenticate, USER_PLACE)
    return authenticate[start:start + length].decode("utf-16le", errors="replace")
