"""A conversation that is the same each time, and all bytes that the server sends in it."""
from __future__ import annotations

import random
import socket
import struct
from collections.abc import Callable

from smblease import Status
from smblease.drive.headers import UNASKED, Message
from smblease.drive.place import Place
from tests.serve.requests import (KEY, OTHER_KEY, Body, acknowledgment, close, create, frame, header, leased, negotiate,
                                  ntlm_tokens, query_directory, query_info, read, rename, session_setup, set_info, tree_connect,
                                  write)
from tests.serve.signing_in import proof
from tests.serve.wire_client import signature

SIGNED = 8
BATCH = 9
DELETES = 0x1000
LIST = create("", access=0x81, disposition=1, options=1)


class Speaker:
    """It sends bytes of its own making alone, and keeps what it is sent."""

    def __init__(self, place: Place, guid: bytes) -> None:
        self._stream = socket.create_connection((place.host, place.port), 20)
        self._guid = guid
        self.sent = b""
        self.number = self.session = self.tree = 0
        self._key = b""

    def send(self, body: Body) -> int:
        command, text = body
        data = header(command, self.number, self.session, self.tree, flags=SIGNED if self._key else 0) + text
        if self._key:
            data = data[:48] + signature(data, self._key) + data[64:]
        self._stream.sendall(frame(data))
        self.number += 1
        return self.number - 1

    def receive(self) -> Message:
        head = self._take(4)
        return Message(self._take(struct.unpack(">L", head)[0]))

    def _take(self, length: int) -> bytes:
        data = b""
        while len(data) < length:
            part = self._stream.recv(length - len(data))
            assert part, "the server closed the connection"
            data += part
        self.sent += data
        return data

    def ask(self, body: Body) -> Message:
        number = self.send(body)
        while True:
            message = self.receive()
            if message.identifier == number and message.status != Status.PENDING:
                return message

    def open(self, body: Body) -> int:
        message = self.ask(body)
        assert message.status == Status.SUCCESS, hex(message.status)
        return message.number(128, 8)

    def set_up(self, name: str, password: str | None = None) -> None:
        self.ask(negotiate(self._guid))
        first, second = ntlm_tokens(name)
        challenge, key = self.ask(session_setup(first)), b""
        self.session = challenge.session
        if password is not None:
            # (impacket draws what it sends from this)
            random.seed(name)
            second, key = proof(challenge, name, password)
        assert self.ask(session_setup(second)).status == Status.SUCCESS
        self._key = key
        self.tree = self.ask(tree_connect()).tree

    def close(self) -> None:
        self._stream.close()


def converse(place: Place, set_up: Callable[[Speaker], None]) -> list[bytes]:
    """What the server sends to each of two clients."""
    one, other = Speaker(place, b"1" * 16), Speaker(place, b"2" * 16)
    for client in (one, other):
        set_up(client)
    work(one)
    meet(one, other)
    for client in (one, other):
        client.close()
    return [one.sent, other.sent]


def work(client: Speaker) -> None:
    """Files and folders are made, changed, listed and deleted."""
    held = client.open(leased("file", KEY, "RWH", durable=True))
    for body in (write(held), query_info(held, 18), write(held, 5), query_info(held, 4), read(held)):
        client.ask(body)
    folder = client.open(create("folder", options=1))
    below = client.open(create("folder\\below", access=0x13019F, level=BATCH))
    client.ask(set_info(below, 4, struct.pack("<QQQQLL", 0, 0, 132000000000000000, 0, 0x20, 0)))
    client.ask(set_info(below, 20, struct.pack("<Q", 100)))
    client.ask(rename(below, "folder\\later"))
    for body in (query_info(below, 6), query_directory(folder), close(below), close(folder), close(held)):
        client.ask(body)
    client.ask(close(client.open(create("file", access=0x13019F, options=DELETES))))
    root = client.open(LIST)
    for body in (query_directory(root), close(root)):
        client.ask(body)


def meet(one: Speaker, other: Speaker) -> None:
    """A break that is waited for, and one that isn't."""
    held = one.open(leased("shared", KEY, "RWH"))
    number = other.send(leased("shared", OTHER_KEY, "RH"))
    assert other.receive().status == Status.PENDING
    assert one.receive().identifier == UNASKED
    one.ask(acknowledgment(KEY, "RH"))
    opened = other.receive()
    assert (opened.identifier, opened.status) == (number, Status.SUCCESS)
    other.ask(write(opened.number(128, 8)))
    assert one.receive().identifier == UNASKED
    one.ask(close(held))
