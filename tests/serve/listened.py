"""A port at which somebody else's client is connected to a server, and all bytes that the server sends to it."""
from __future__ import annotations

import socket
import threading
from collections.abc import Iterator
from contextlib import contextmanager
from dataclasses import dataclass, field, replace

from smblease.drive.place import Place

PIECE = 65536


@dataclass
class Listened:
    place: Place
    sent: bytearray = field(default_factory=bytearray)


def _ask(client: socket.socket, server: socket.socket) -> None:
    while data := client.recv(PIECE):
        server.sendall(data)
    server.shutdown(socket.SHUT_WR)


def _connect(port: socket.socket, place: Place, sent: bytearray) -> None:
    with port.accept()[0] as client, socket.create_connection((place.host, place.port)) as server:
        asking = threading.Thread(target=_ask, args=(client, server))
        asking.start()
        while data := server.recv(PIECE):
            sent += data
            client.sendall(data)
        asking.join()


@contextmanager
def listened(place: Place) -> Iterator[Listened]:
    """For one connection, which is over by the end."""
    with socket.create_server(("127.0.0.1", 0)) as port:
        found = Listened(replace(place, port=int(port.getsockname()[1])))
        connecting = threading.Thread(target=_connect, args=(port, place, found.sent))
        connecting.start()
        try:
            yield found
        finally:
            connecting.join()
