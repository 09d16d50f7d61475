"""SMB2 messages as they come and go: frames, headers and compounds (2.1, 2.2.1)."""
from __future__ import annotations

import struct
from dataclasses import dataclass, field
from typing import TYPE_CHECKING, Any

from smblease.drive.headers import ASYNC, COMMANDS, FROM_SERVER, HEADER, RELATED, Command, Message, Unreadable
from smblease.drive.packets import PROTOCOL
from smblease.serve.signing import NO_SIGNATURE, Signer, signed

if TYPE_CHECKING:
    from smblease.serve.preauth_integrity import PreauthIntegrity
    from smblease.serve.transforms import SessionEncryption

HEAD = struct.Struct("<4sHHLHHLLQQQ16s")
LENGTH = struct.Struct(">L")
# A request's header: its beginning, charge, command, credits, flags, where the next one is, its number, tree and session.
ASKED = struct.Struct("<4sHH4xHHLLQ4xLQ16x")
NUMBER = struct.Struct("<L")
PADDINGS = tuple(map(bytes, range(8)))
ERROR_BODY = struct.pack("<HBBL", 9, 0, 0, 0) + b"\0"
SIGNED = 8
# The most that is read or written at once; and what a frame may hold, which has room for headers and contexts too.
LONGEST_TRANSFER = 1 << 20
LONGEST_FRAME = LONGEST_TRANSFER + 131072
LONGEST_WITHOUT_SESSION = 65536
MOST_IN_FRAME = 1024
# The StructureSize of requests, as it stands on the wire.
SIZES: dict[Command | None, bytes] = {command: size.to_bytes(2, "little") for command, size in {
    Command.NEGOTIATE: 36, Command.SESSION_SETUP: 25, Command.LOGOFF: 4, Command.TREE_CONNECT: 9, Command.TREE_DISCONNECT: 4,
    Command.CREATE: 57, Command.CLOSE: 24, Command.FLUSH: 24, Command.READ: 49, Command.WRITE: 49, Command.LOCK: 48,
    Command.IOCTL: 57, Command.ECHO: 4, Command.QUERY_DIRECTORY: 33, Command.CHANGE_NOTIFY: 32, Command.QUERY_INFO: 41,
    Command.SET_INFO: 33}.items()}
# Where a request says how many bytes it sends, and where how many it may be answered, from the header's first byte: of two places
# the numbers are added.
PAYLOADS: dict[Command | None, list[tuple[int, int | None]]] = {
    Command.READ: [(68, None)], Command.WRITE: [(68, None)], Command.QUERY_DIRECTORY: [(92, None)],
    Command.IOCTL: [(92, 104), (96, 108)], Command.QUERY_INFO: [(68, None), (76, None)], Command.SET_INFO: [(68, None)],
    Command.CHANGE_NOTIFY: [(68, None)]}
CREDIT_BYTES = 65536


class RequestMessage(Message):
    """A request; its fields are read at their places from the header's first byte."""

    code: int
    charge: int
    credits_asked: int
    is_related: int
    is_signed: int
    # what it was opened by, where it came encrypted
    encryption: SessionEncryption | None = None

    def __init__(self, data: bytes, head: tuple[Any, ...]) -> None:  # pylint: disable=super-init-not-called  # (which is slower)
        """Its header is read once: the fields of ASKED."""
        _, _, charge, code, credits_asked, flags, _, identifier, tree, session = head
        object.__setattr__(self, "__dict__", {
            "data": data, "charge": charge, "code": code, "command": COMMANDS.get(code), "credits_asked": credits_asked,
            "flags": flags, "identifier": identifier, "tree": tree, "session": session, "is_related": flags & RELATED,
            "is_signed": flags & SIGNED})

    def came_encrypted(self, encryption: SessionEncryption) -> None:
        object.__setattr__(self, "encryption", encryption)

    def forget_charge(self) -> None:
        """Dialect 2.0.2 has none (2.2.1.2)."""
        object.__setattr__(self, "charge", 0)

    @property
    def async_id(self) -> int | None:
        return self.number(32, 8) if self.flags & ASYNC else None

    def fields(self, layout: struct.Struct) -> tuple[Any, ...]:
        """Those of its body, as far as the layout goes."""
        try:
            return layout.unpack_from(self.data, HEADER)
        except struct.error:
            raise Unreadable from None

    def buffer(self, offset_place: int, length: int) -> bytes:
        """Bytes that lie where a field of two bytes says."""
        return self.part(self.number(offset_place, 2), length) if length else b""

    def view(self, place: int, length: int) -> memoryview:
        """Bytes that lie at a place, where the message has them."""
        if length and place + length > len(self.data):
            raise Unreadable
        return memoryview(self.data)[place:place + length]

    def check_form(self) -> None:
        """The StructureSize has to be that of the command; the messages of OPLOCK_BREAK have several. And what it costs has to be
        enough for what it transfers (3.3.5.2.5); a charge of 0 is one of 1."""
        command = self.command
        if command in SIZES and self.data[HEADER:HEADER + 2] != SIZES[command]:
            raise Unreadable
        if command in PAYLOADS:
            self._check_charge(PAYLOADS[command])

    def _check_charge(self, payloads: list[tuple[int, int | None]]) -> None:
        data, most = self.data, CREDIT_BYTES * (self.charge or 1)
        try:
            for place, other in payloads:
                count, = NUMBER.unpack_from(data, place)
                if other:
                    count += NUMBER.unpack_from(data, other)[0]
                if count > most:
                    raise Unreadable
        except struct.error:
            raise Unreadable from None


@dataclass
class Answer:
    """What a request is answered: a status, and the body where that isn't an error's."""

    status: int
    body: bytes = ERROR_BODY
    # what follows the body, as the bytes of a file
    data: bytes = b""
    # what the answer says of session, tree and open where the request didn't
    session: int | None = None
    tree: int | None = None
    opened: int | None = None
    signer: Signer | None = None
    # the hash that it becomes a part of, as it is sent
    integrity: PreauthIntegrity | None = None


@dataclass
class Response:
    """A message on its way to a client."""

    command: int
    status: int
    message: int
    credits: int
    session: int
    tree: int
    body: bytes
    data: bytes = b""
    charge: int = 0
    flags: int = FROM_SERVER
    async_id: int | None = None
    signer: Signer | None = field(default=None, repr=False)
    # what the frame is sealed by that it is in
    encryption: SessionEncryption | None = field(default=None, repr=False)

    def length(self) -> int:
        return HEADER + len(self.body) + len(self.data)

    def header(self, following: int) -> bytes:
        place, flags = self.tree << 32, self.flags
        if self.async_id is not None:
            place, flags = self.async_id, flags | ASYNC
        if self.signer:
            flags |= SIGNED
        return HEAD.pack(PROTOCOL, HEADER, self.charge, self.status, self.command, self.credits, flags, following,
                         self.message, place, self.session, NO_SIGNATURE)


def framed(responses: list[Response]) -> bytes:
    """A frame of one message, or of a compound whose messages begin at multiples of eight; what answers encrypted requests is
    sealed whole."""
    last = responses[-1]
    if len(responses) == 1 and not last.signer and not last.encryption:
        return b"".join((LENGTH.pack(HEADER + len(last.body) + len(last.data)), last.header(0), last.body, last.data))
    parts, total = [b""], 0
    for response in responses:
        length = response.length()
        padding = 0 if response is last else -length % 8
        following = 0 if response is last else length + padding
        if response.signer:
            message = b"".join((response.header(following), response.body, response.data, PADDINGS[padding]))
            parts.append(signed(message, response.signer))
        else:
            parts += (response.header(following), response.body, response.data, PADDINGS[padding])
        total += length + padding
    if last.encryption:
        sealed = last.encryption.sealed(b"".join(parts))
        return LENGTH.pack(len(sealed)) + sealed
    parts[0] = LENGTH.pack(total)
    return b"".join(parts)


def split_compound(frame: bytes, most: int = MOST_IN_FRAME) -> list[RequestMessage]:
    """The requests of a frame, so many at most."""
    found: list[RequestMessage] = []
    start, following = 0, HEADER
    while following:
        left = len(frame) - start
        if left < HEADER or len(found) == most:
            raise Unreadable
        head = ASKED.unpack_from(frame, start)
        following = head[6]
        if head[0] != PROTOCOL or head[1] != HEADER or following and not (
                HEADER <= following <= left - HEADER and following % 8 == 0):
            raise Unreadable
        # (a frame of one request isn't copied)
        found.append(RequestMessage(frame[start:start + following] if following else frame[start:], head))
        start += following
    return found


class Frames:
    """The bytes of a stream, cut into frames."""

    def __init__(self) -> None:
        # what came at once, as long as whole frames can be cut out of it; then what is left
        self._bytes: bytes | bytearray = b""
        self._place = 0

    def __len__(self) -> int:
        """The bytes that aren't taken yet."""
        return len(self._bytes) - self._place

    def add(self, data: bytes) -> None:
        if self._place == len(self._bytes):
            self._bytes, self._place = data, 0
        else:
            self._rest().extend(data)

    def _rest(self) -> bytearray:
        """What isn't taken yet, to which more is added."""
        rest = self._bytes
        if isinstance(rest, bytearray):
            del rest[:self._place]
        else:
            rest = bytearray(memoryview(rest)[self._place:])
        self._bytes, self._place = rest, 0
        return rest

    def next(self, longest: int = LONGEST_FRAME) -> bytes | None:
        """The next whole frame. What can't begin one is Unreadable."""
        data, start = self._bytes, self._place + 4
        left = len(data) - start
        if left >= 0:
            length, = LENGTH.unpack_from(data, start - 4)
            if length > longest:
                raise Unreadable
            if length <= left:
                self._place = start + length
                return data[start:start + length] if isinstance(data, bytes) else _cut(data, start, length)
        self._keep_rest(left)
        return None

    def _keep_rest(self, left: int) -> None:
        """What is taken isn't kept in memory."""
        if left == -4:
            self._bytes, self._place = b"", 0
        elif self._place or not isinstance(self._bytes, bytearray):
            self._rest()


def _cut(data: bytearray, start: int, length: int) -> bytes:
    with memoryview(data) as whole:
        return bytes(whole[start:start + length])


class Credits:
    """The numbers that requests of a connection may have (3.3.1.1)."""

    MOST = 8192

    def __init__(self) -> None:
        self._low = 0
        self._high = 1
        self._used: set[int] = set()

    def take(self, number: int, charge: int) -> bool:
        """Takes the numbers of a request; they have to be there."""
        if number < self._low or number + charge > self._high:
            return False
        if number == self._low and not self._used:
            self._low += charge
            return True
        wanted = range(number, number + charge)
        if not self._used.isdisjoint(wanted):
            return False
        self._used.update(wanted)
        while self._low in self._used:
            self._used.discard(self._low)
            self._low += 1
        return True

    def grant(self, request: int) -> int:
        """How many more there are; at least one where none is left."""
        known = self._high - self._low
        given, room = request or 1, self.MOST - known
        if given > room:
            given = room if room > 0 else 0
        if not given and known == len(self._used):
            given = 1
        self._high += given
        return given
