"""A client that sends requests as bytes, one by one, on a session that impacket sets up."""
from __future__ import annotations

import hashlib
import hmac
import select
import socket
import struct
import uuid

from smblease import Status
from smblease.drive.connections import Connection
from smblease.drive.headers import UNASKED, Command, Message
from smblease.drive.place import Place
from tests.serve.requests import Body, frame, header, ntlm_tokens, session_setup, tree_connect

SECONDS = 20.0
SIGNED = 8


def signature(data: bytes, key: bytes) -> bytes:
    """Of a session of dialect 2.1 (3.1.4.1)."""
    return hmac.new(key, data[:48] + bytes(16) + data[64:], hashlib.sha256).digest()[:16]


class Closed(Exception):
    """The server closed the connection."""


class WireClient:
    # pylint: disable=protected-access  # impacket tells of its socket, session and numbers in no other way
    def __init__(self, place: Place, guid: bytes | None = None) -> None:
        self.guid = guid or uuid.uuid4().bytes
        self._connection = Connection(place, self.guid)
        smb = self._connection._smb
        self.stream: socket.socket = smb._NetBIOSSession.get_socket()
        self.session = int(smb._Session["SessionID"])
        self.tree = int(self._connection._tree)
        self.number = int(smb._Connection["SequenceWindow"])
        self.key = bytes(smb._Session["SessionKey"] or b"")[:16]
        self.breaks: list[Message] = []

    def close(self) -> None:
        self._connection.close()

    def send(self, body: Body, signs: bool = False, damages: bool = False, charge: int = 1) -> int:
        command, text = body
        data = header(command, self.number, self.session, self.tree, flags=SIGNED if signs else 0, charge=charge) + text
        if signs:
            data = data[:48] + signature(data, self.key) + data[64:]
        self.stream.sendall(frame(data[:-1] + bytes([data[-1] ^ damages])))
        number, self.number = self.number, self.number + max(1, charge)
        return number

    def send_cancel(self, number: int) -> None:
        self.stream.sendall(frame(header(Command.CANCEL, number, self.session, self.tree) + struct.pack("<HH", 4, 0)))

    def is_signed(self, message: Message) -> bool:
        return bool(message.flags & SIGNED) and message.part(48, 16) == signature(message.data, self.key)

    def receive(self, seconds: float = SECONDS) -> Message:
        """The next message, or the messages of a compound, as they come."""
        self.stream.settimeout(seconds)
        length, = struct.unpack(">L", self._take(4))
        return Message(self._take(length))

    def answer_to(self, number: int) -> Message:
        """The last answer to a request; breaks that come before it are kept."""
        while True:
            message = self.receive()
            if message.identifier == UNASKED:
                self.breaks.append(message)
            elif message.identifier == number and message.status != Status.PENDING:
                return message

    def ask(self, body: Body) -> Message:
        return self.answer_to(self.send(body))

    def status(self, body: Body) -> int:
        return self.ask(body).status

    def open(self, body: Body) -> int:
        """The FileId of a CREATE that succeeds."""
        message = self.ask(body)
        assert message.status == Status.SUCCESS, hex(message.status)
        return file_id(message)

    def connect_tree(self) -> None:
        self.tree = self.ask(tree_connect()).tree

    def set_up_another_session(self, name: str = "guest") -> int:
        """One more session of a guest on this connection, which the client doesn't use."""
        used, self.session = self.session, 0
        for token in ntlm_tokens(name):
            message = self.ask(session_setup(token))
            self.session = message.session
        assert message.status == Status.SUCCESS, hex(message.status)
        made, self.session = self.session, used
        return made

    def has_more(self, seconds: float) -> bool:
        return bool(select.select([self.stream], [], [], seconds)[0])

    def _take(self, length: int) -> bytes:
        data = b""
        while len(data) < length:
            part = self.stream.recv(length - len(data))
            if not part:
                raise Closed
            data += part
        return data


def file_id(message: Message) -> int:
    return message.number(128, 8)


def contexts_of(message: Message) -> bytes:
    place, length = message.number(144, 4), message.number(148, 4)
    return message.part(place, length) if length else b""


def parts_of(message: Message) -> list[Message]:
    """The messages of a compound."""
    found, data = [], message.data
    while data:
        following = int.from_bytes(data[20:24], "little")
        found.append(Message(data[:following] if following else data))
        data = data[following:] if following else b""
    return found
