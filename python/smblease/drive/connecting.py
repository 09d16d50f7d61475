"""What connections.py has, loaded at its first use: it needs impacket, which help and `--version` shall do without."""
# pylint: disable=import-outside-toplevel
from __future__ import annotations

from typing import TYPE_CHECKING

if TYPE_CHECKING:
    from smblease.drive.connections import Connection
    from smblease.drive.place import Place
    from smblease.drive.received import FileId, Message
    from smblease.replies import Reply
    from smblease.requests import Request


def connected(place: Place, guid: bytes) -> Connection:
    """A connection of a client with its session and tree."""
    from smblease.drive.connections import Connection
    return Connection(place, guid)


def reply_of(request: Request, message: Message) -> tuple[Reply, FileId | None]:
    """What a message answers to its request, and the FileId of an open that was made."""
    from smblease.drive import connections
    return connections.reply_of(request, message)


def password_hash(password: str) -> str:
    """As smbpasswd has it."""
    from smblease.drive import connections
    return connections.password_hash(password)
