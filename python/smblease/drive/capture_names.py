"""The names in the frames of a capture, with their case left out as servers leave it out."""
from __future__ import annotations

from smblease.drive.headers import HEADER, Command, Message, Unreadable
from smblease.drive.packets import PROTOCOL
from smblease.serve.names import folded

# InfoType, and the classes FileRenameInformation and FileLinkInformation (MS-SMB2 2.2.39, MS-FSCC 2.4)
_OF_FILE, _NAMING = 1, (10, 11)
_HAVE_NAMES = (Command.TREE_CONNECT, Command.CREATE, Command.SET_INFO)


def without_case(digits: str) -> str:
    """A frame in hexadecimal digits, whose requests have the paths of shares and the names of files in upper case, code unit for
    code unit. Whatever else is there stays, and a frame that can't be read too.

    >>> without_case("fe534d42") == "fe534d42"
    True
    """
    if not digits.startswith(PROTOCOL.hex()) or len(digits) < 2 * HEADER:
        return digits
    header = bytes.fromhex(digits[:2 * HEADER])
    if not _next_of(header) and Message(header).command not in _HAVE_NAMES:
        return digits
    data = bytes.fromhex(digits)
    return b"".join(_folded(message) for message in _messages(data)).hex()


def _next_of(message: bytes) -> int:
    return int.from_bytes(message[20:24], "little")


def _messages(data: bytes) -> list[bytes]:
    """The messages of a compound, up to one that says nothing of the next or what can't be so."""
    found = []
    while HEADER <= _next_of(data) < len(data):
        found.append(data[:_next_of(data)])
        data = data[_next_of(data):]
    return [*found, data]


def _folded(data: bytes) -> bytes:
    try:
        place, length = _name_in(Message(data))
        name = Message(data).part(place, length - length % 2)
    except Unreadable:
        return data
    upper = folded(name.decode("utf-16le", "surrogatepass")).encode("utf-16le", "surrogatepass")
    return data[:place] + upper + data[place + len(upper):]


def _name_in(message: Message) -> tuple[int, int]:
    """Where a request has its name, and how many bytes that has."""
    if message.is_from_server:
        return 0, 0
    if message.command is Command.TREE_CONNECT:
        return message.number(68, 2), message.number(70, 2)
    if message.command is Command.CREATE:
        return message.number(108, 2), message.number(110, 2)
    if message.command is Command.SET_INFO and message.number(66, 1) == _OF_FILE and message.number(67, 1) in _NAMING:
        place = message.number(72, 2)
        return place + 20, message.number(place + 16, 4)
    return 0, 0
