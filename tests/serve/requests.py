"""Requests as bytes: a header, and the bodies of whole requests that a test damages or sends as they are."""
from __future__ import annotations

import struct
import uuid
from collections.abc import Sequence
from typing import Tuple

from smblease import Acknowledgment, Context, CreateAsk, LeaseState, append_context
from smblease.drive.headers import RELATED, Command

HEAD = struct.Struct("<4sHHLHHLLQLLQ16s")
EVERY_FILE_ID = 0xFFFFFFFFFFFFFFFF
KEY, OTHER_KEY = uuid.UUID(bytes=b"k" * 16), uuid.UUID(bytes=b"l" * 16)
NEW_NAME = "other.dat"
Body = Tuple[Command, bytes]


def header(command: int, number: int, session: int, tree: int, following: int = 0, flags: int = 0, charge: int = 1) -> bytes:
    return HEAD.pack(b"\xfeSMB", 64, charge, 0, command, 31, flags, following, number, 0, tree, session, bytes(16))


def frame(data: bytes) -> bytes:
    return struct.pack(">L", len(data)) + data


def wire(file_id: int) -> bytes:
    return struct.pack("<QQ", file_id, file_id)


def create(name: str, access: int = 0x12019F, share: int = 7, disposition: int = 3, options: int = 0, level: int = 0,
           contexts: bytes = b"") -> Body:
    text = name.encode("utf-16le", "surrogatepass")
    padded = text + bytes(-len(text) % 8)
    fixed = struct.pack("<HBBLQQLLLLLHHLL", 57, 0, level, 2, 0, 0, access, 0, share, disposition, options, 120, len(text),
                        120 + len(padded) if contexts else 0, len(contexts))
    return Command.CREATE, fixed + (padded + contexts or b"\0")


def leased(name: str, key: uuid.UUID, letters: str, durable: bool = False, disposition: int = 3) -> Body:
    """A CREATE that asks for a lease, for its most access and its identifier."""
    contexts = CreateAsk(key, LeaseState.of(letters), durable).write()
    for added in (Context(b"MxAc", bytes(8)), Context(b"QFid", b"")):
        contexts = append_context(contexts, added)
    return create(name, level=0xFF, contexts=contexts, disposition=disposition)


def write(file_id: int, offset: int = 3, data: bytes = b"bytes") -> Body:
    return Command.WRITE, struct.pack("<HHLQ16sLLHHL", 49, 112, len(data), offset, wire(file_id), 0, 0, 0, 0, 0) + data


def read(file_id: int, length: int = 100, least: int = 0) -> Body:
    return Command.READ, struct.pack("<HBBLQ16sLLLHH", 49, 80, 0, length, 0, wire(file_id), least, 0, 0, 0, 0) + b"\0"


def close(file_id: int) -> Body:
    return Command.CLOSE, struct.pack("<HHL16s", 24, 1, 0, wire(file_id))


def flush(file_id: int) -> Body:
    return Command.FLUSH, struct.pack("<HHL16s", 24, 0, 0, wire(file_id))


def lock(file_id: int, flags: int = 2 | 16, offset: int = 0, length: int = 1, more: Sequence[int] = ()) -> Body:
    """A lock of a range, and of more of this length."""
    ranges = b"".join(struct.pack("<QQLL", it, length, flags, 0) for it in (offset, *more))
    return Command.LOCK, struct.pack("<HHL16s", 48, 1 + len(more), 0, wire(file_id)) + ranges


def query_info(file_id: int, kind: int) -> Body:
    return Command.QUERY_INFO, struct.pack("<HBBLHHLLL16s", 41, 1, kind, 4096, 0, 0, 0, 0, 0, wire(file_id)) + b"\0"


def set_info(file_id: int, kind: int, data: bytes) -> Body:
    return Command.SET_INFO, struct.pack("<HBBLHHL16s", 33, 1, kind, len(data), 96, 0, 0, wire(file_id)) + data


def rename(file_id: int, name: str, replaces: bool = True) -> Body:
    text = name.encode("utf-16le", "surrogatepass")
    return set_info(file_id, 10, struct.pack("<QQL", replaces, 0, len(text)) + text)


def query_directory(file_id: int, pattern: str = "*", length: int = 4096, flags: int = 0) -> Body:
    text = pattern.encode("utf-16le", "surrogatepass")
    return Command.QUERY_DIRECTORY, struct.pack("<HBBL16sHHL", 33, 37, flags, 0, wire(file_id), 96, len(text), length) + text


def acknowledgment(key: uuid.UUID, letters: str) -> Body:
    return Command.OPLOCK_BREAK, Acknowledgment(key, LeaseState.of(letters)).write()


def acknowledge_oplock(file_id: int, level: int = 1) -> Body:
    return Command.OPLOCK_BREAK, struct.pack("<HBBL16s", 24, level, 0, 0, wire(file_id))


def on_open(file_id: int) -> list[Body]:
    """A request of each kind for an open file."""
    of_file = wire(file_id)
    return [
        write(file_id), read(file_id), flush(file_id), lock(file_id),
        query_info(file_id, 18),
        set_info(file_id, 20, struct.pack("<Q", 100)), rename(file_id, NEW_NAME),
        set_info(file_id, 4, struct.pack("<QQQQLL", 1, 2, 3, 4, 0x20, 0)), query_directory(file_id),
        (Command.IOCTL, struct.pack("<HHL16sLLLLLLLL", 57, 0, 0x00140204, of_file, 120, 4, 0, 0, 0, 100, 1, 0) + b"abcd"),
        (Command.CHANGE_NOTIFY, struct.pack("<HHL16sLL", 32, 0, 4096, of_file, 1, 0)), acknowledge_oplock(file_id),
        close(file_id),
    ]


def tree_connect(share: str = "share") -> Body:
    path = f"\\\\server\\{share}".encode("utf-16le")
    return Command.TREE_CONNECT, struct.pack("<HHHH", 9, 0, 72, len(path)) + path


def session_setup(token: bytes, previous: int = 0, mode: int = 1) -> Body:
    return Command.SESSION_SETUP, struct.pack("<HBBLLHHQ", 25, 0, mode, 0, 0, 88, len(token), previous) + token


def ntlm_tokens(name: str) -> list[bytes]:
    """A NEGOTIATE_MESSAGE and an AUTHENTICATE_MESSAGE of this name, without a password (MS-NLMP 2.2.1.1, 2.2.1.3)."""
    text = name.encode("utf-16le", "surrogatepass")
    empty, fields = struct.pack("<HHL", 0, 0, 64), struct.pack("<HHL", len(text), len(text), 64)
    authenticate = b"NTLMSSP\0" + struct.pack("<L", 3) + empty * 3 + fields + empty * 2 + struct.pack("<L", 0x00080201) + text
    return [b"NTLMSSP\0" + struct.pack("<LL", 1, 0x00080201) + bytes(16), authenticate]


def negotiate(guid: bytes) -> Body:
    return Command.NEGOTIATE, struct.pack("<HHHHL16sQHH", 36, 2, 1, 0, 0, guid, 0, 0x0202, 0x0210)


ECHO: Body = (Command.ECHO, struct.pack("<HH", 4, 0))
PLAIN: list[Body] = [
    ECHO, negotiate(b"g" * 16),
    (Command.SESSION_SETUP, struct.pack("<HBBLLHHQ", 25, 0, 1, 0, 0, 88, 12, 0) + b"NTLMSSP\0\1\0\0\0"),
    (Command.TREE_CONNECT, struct.pack("<HHHH", 9, 0, 72, 22) + "\\\\a\\share".encode("utf-16le") + bytes(6)),
    (Command.CANCEL, struct.pack("<HH", 4, 0)), acknowledgment(KEY, "RH"), acknowledgment(OTHER_KEY, "none"),
]
CREATES: list[Body] = [
    create("folder", options=1), create("", access=0x81, disposition=1, options=1), create("plain.dat"),
    create("plain.dat", level=9, contexts=CreateAsk(durable=True).write()),
    create("gone.dat", access=0x13019F, options=0x1000), create("plain.dat", access=0x80, disposition=1),
    create("plain.dat:stream", disposition=5), leased("leased.dat", KEY, "RWH", True), leased("plain.dat", OTHER_KEY, "RH"),
    create("leased.dat", contexts=CreateAsk(reconnect=0).write()),
]


def together(number: int, session: int, tree: int, bodies: list[Body], flags: int = 0, charge: int = 1) -> bytes:
    """A frame of these requests, each at so many credits; the flags are those of all but the first."""
    data = b""
    for place, (command, body) in enumerate(bodies):
        body += bytes(-len(body) % 8)
        following = 64 + len(body) if place < len(bodies) - 1 else 0
        data += header(command, number + place * charge, session, tree, following, flags if place else 0, charge) + body
    return frame(data)


def compound(number: int, session: int, tree: int, bodies: list[Body], charge: int = 1) -> bytes:
    """A frame of these requests, each related to the one before it."""
    return together(number, session, tree, bodies, RELATED, charge)
