"""SMB2 messages, as far as their fixed parts go (2.2.1 and the parts named at each field)."""
from __future__ import annotations

from dataclasses import dataclass
from enum import IntEnum
from functools import cached_property

HEADER = 64
UNASKED = 0xFFFFFFFFFFFFFFFF
FROM_SERVER, ASYNC, RELATED, REPLAY = 1, 2, 4, 0x20000000
# the FileId of a request that means the one before it in its compound
PREVIOUS = b"\xff" * 16


class Command(IntEnum):
    NEGOTIATE = 0
    SESSION_SETUP = 1
    LOGOFF = 2
    TREE_CONNECT = 3
    TREE_DISCONNECT = 4
    CREATE = 5
    CLOSE = 6
    FLUSH = 7
    READ = 8
    WRITE = 9
    LOCK = 10
    IOCTL = 11
    CANCEL = 12
    ECHO = 13
    QUERY_DIRECTORY = 14
    CHANGE_NOTIFY = 15
    QUERY_INFO = 16
    SET_INFO = 17
    OPLOCK_BREAK = 18


COMMANDS = {int(it): it for it in Command}
# where a request has its FileId
FILE_IDS = {Command.CLOSE: 72, Command.FLUSH: 72, Command.READ: 80, Command.WRITE: 80, Command.LOCK: 72, Command.IOCTL: 72,
            Command.QUERY_DIRECTORY: 72, Command.CHANGE_NOTIFY: 72, Command.QUERY_INFO: 88, Command.SET_INFO: 80}


class Unreadable(Exception):
    """A message is shorter than what has to be read of it."""

    def __str__(self) -> str:
        return "it ends before that"


class Field:
    """A number in the header, by its place and size."""

    def __init__(self, place: int, size: int) -> None:
        self._place, self._size = place, size

    def __get__(self, message: Message, kind: type[Message]) -> int:
        return message.number(self._place, self._size)


@dataclass(frozen=True)
class Message:
    """A whole message, with its header."""

    data: bytes
    status, flags, identifier, tree, session = Field(8, 4), Field(16, 4), Field(24, 8), Field(36, 4), Field(40, 8)

    def __post_init__(self) -> None:
        if len(self.data) < HEADER:
            raise Unreadable

    def number(self, place: int, size: int) -> int:
        if place + size > len(self.data):
            raise Unreadable
        return int.from_bytes(self.data[place:place + size], "little")

    def part(self, place: int, length: int) -> bytes:
        if place + length > len(self.data):
            raise Unreadable
        return self.data[place:place + length]

    def text(self, place: int, length: int) -> str:
        return self.part(place, length).decode("utf-16le", errors="replace")

    @cached_property
    def command(self) -> Command | None:
        return COMMANDS.get(self.number(12, 2))

    @property
    def name(self) -> str:
        return self.command.name if self.command is not None else "unknown command"

    @property
    def is_from_server(self) -> bool:
        return bool(self.flags & FROM_SERVER)

    @property
    def file_id(self) -> bytes | None:
        place = FILE_IDS.get(self.command) if self.command is not None else None
        return self.part(place, 16) if place else None


def tree_path(message: Message) -> str:
    return message.text(message.number(68, 2), message.number(70, 2))


def create_name(message: Message) -> str:
    length = message.number(110, 2)
    return message.text(message.number(108, 2), length) if length else ""
