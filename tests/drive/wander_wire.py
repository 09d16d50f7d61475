"""Connections of random clients to a real server, in dialect 2.1 or 3.1.1, over impacket's transport and NTLM, and their
requests, which are sent without waiting for an answer, and aren't signed."""
# pylint: disable=protected-access
# (impacket has no other way to its socket and its count of messages)
from __future__ import annotations

import select
import struct
from collections.abc import Callable, Iterator
from contextlib import contextmanager, suppress
from dataclasses import dataclass, replace

from smblease.drive.place import Place
from smblease.serve.dialects import NAMES

from tests.drive.hand_made import PREVIOUS, acknowledgment, chain, close, compound, context, lease, message, of_session

PROTOCOLS = {"2.1": "SMB2_10", "3.1.1": "SMB3_11"}
CREDITS = 64
LEASE_LEVEL = 0xFF
# rights of DesiredAccess (2.2.13.1.1)
READ_DATA, WRITE_DATA, READ_ATTRIBUTES, DELETE = 0x1, 0x2, 0x80, 0x10000
DATA = READ_DATA | WRITE_DATA
OPEN, OPEN_IF, OVERWRITE_IF = 1, 3, 5
DURABLE = context(b"DHnQ", bytes(16))


@dataclass(frozen=True)
class Ask:
    """What a CREATE asks for: a lease of `key` and `state`, of version 2 if it has an epoch; none where the key is 0."""

    name: str
    access: int
    share: int
    key: int
    state: int
    epoch: int | None = None
    disposition: int = OPEN_IF
    asks_number: bool = False
    is_durable: bool = False

    @property
    def contexts(self) -> bytes:
        wanted = [*([lease(self.key, self.state, epoch=self.epoch)] if self.key else []),
                  *([DURABLE] if self.is_durable else []), *([context(b"QFid", b"")] if self.asks_number else [])]
        return chain(*wanted) if wanted else b""

    def message(self, identifier: int) -> bytes:
        text, contexts = self.name.encode("utf-16le"), self.contexts
        padded = text + bytes(-len(text) % 8)
        fixed = struct.pack("<HBBLQQLLLLLHHLL", 57, 0, LEASE_LEVEL if self.key else 0, 2, 0, 0, self.access, 0, self.share,
                            self.disposition, 0x40, 120, len(text), 120 + len(padded) if contexts else 0, len(contexts))
        return message(5, fixed + padded + contexts, identifier)


# ---- requests about an open, the MessageId last

def reads(open_id: bytes, identifier: int) -> bytes:
    return message(8, struct.pack("<HBBLQ", 49, 0x50, 0, 100, 0) + open_id + bytes(17), identifier)


def writes(open_id: bytes, offset: int, identifier: int) -> bytes:
    return message(9, struct.pack("<HHLQ", 49, 112, 3, offset) + open_id + bytes(16) + b"abc", identifier)


def closes(open_id: bytes, identifier: int) -> bytes:
    return close(identifier, open_id)


def closes_the_last(identifier: int) -> bytes:
    """That which the message before it in the compound opens."""
    return close(identifier, PREVIOUS, related=True)


def renames(open_id: bytes, name: str, identifier: int) -> bytes:
    """SET_INFO of FileRenameInformation (2.2.39), which replaces what has the name."""
    text = name.encode("utf-16le")
    target = struct.pack("<BxxxxxxxQL", 1, 0, len(text)) + text
    return message(17, struct.pack("<HBBLHHL", 33, 1, 10, len(target), 96, 0, 0) + open_id + target, identifier)


def deletes(open_id: bytes, identifier: int) -> bytes:
    """SET_INFO of FileDispositionInformation."""
    return message(17, struct.pack("<HBBLHHL", 33, 1, 13, 1, 96, 0, 0) + open_id + b"\1", identifier)


def acknowledges(key: int, state: int, identifier: int) -> bytes:
    return acknowledgment(identifier, key, state)


class Lost(Exception):
    """The connection is no longer there."""


@contextmanager
def _kept() -> Iterator[None]:
    """What fails in here is a lost connection."""
    try:
        yield
    except Exception as fault:  # impacket raises bare ones too
        raise Lost(str(fault)) from fault


class Channel:
    """A connection with its session and tree."""

    def __init__(self, place: Place, guid: bytes, dialect: str) -> None:
        # (it loads impacket, which a module that names this one shall do without)
        from smblease.drive.protocol import Protocol  # pylint: disable=import-outside-toplevel
        with _kept():
            self._smb = Protocol(replace(place, dialects=(NAMES[dialect],)), guid)
            self._smb.login(place.user, place.password, place.domain)
            self._tree = int(self._smb.connectTree(place.share))
            self._session = int(self._smb._Session["SessionID"])

    def sends(self, *made: Callable[[int], bytes]) -> int:
        """Sends the messages that are made for MessageIds, as a compound where there are several, and answers the first of
        those."""
        first = int(self._smb._Connection["SequenceWindow"])
        self._smb._Connection["SequenceWindow"] += len(made)
        with _kept():
            self._smb.frames.bare.send_packet(compound([self._of_session(one(first + at)) for at, one in enumerate(made)]))
        return first

    def _of_session(self, one: bytes) -> bytes:
        """A message with what its header has on this connection: CreditCharge, CreditRequest, TreeId and SessionId."""
        text = bytearray(of_session(one, self._session))
        struct.pack_into("<H", text, 6, 1)
        struct.pack_into("<H", text, 14, CREDITS)
        struct.pack_into("<L", text, 36, self._tree)
        return bytes(text)

    def received(self, seconds: float) -> bytes | None:
        """The next frame; none where none comes in that time."""
        with _kept():
            if not select.select([self._smb.frames.get_socket()], [], [], seconds)[0]:
                return None
            return bytes(self._smb.frames.bare.recv_packet(20).get_trailer())

    def closes(self) -> None:
        with suppress(OSError):
            self._smb.frames.close()
