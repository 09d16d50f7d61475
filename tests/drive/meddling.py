"""Somebody between a client and a server, who may change what goes there."""
from __future__ import annotations

import socket
import struct
import threading
from collections.abc import Callable, Iterator
from contextlib import contextmanager, suppress

# What becomes of a frame: who sent it, and which of its sender's it is, from 0 on.
Change = Callable[[str, int, bytes], bytes]
CLIENT, SERVER = "client", "server"


def _taken(stream: socket.socket, count: int) -> bytes:
    data = b""
    while len(data) < count:
        more = stream.recv(count - len(data))
        if not more:
            raise EOFError
        data += more
    return data


def _passes_on(sender: str, source: socket.socket, target: socket.socket, change: Change) -> None:
    """Until one of them ends the connection."""
    number = 0
    with suppress(OSError, EOFError):
        while True:
            length, = struct.unpack(">L", _taken(source, 4))
            frame = change(sender, number, _taken(source, length))
            target.sendall(struct.pack(">L", len(frame)) + frame)
            number += 1
    for stream in (source, target):
        with suppress(OSError):
            stream.shutdown(socket.SHUT_RDWR)


@contextmanager
def meddled(port: int, change: Change) -> Iterator[int]:
    """The port of one who passes a connection on to a server, and changes its frames."""
    with socket.create_server(("127.0.0.1", 0)) as listening, socket.socket() as server:

        def serve() -> None:
            with suppress(OSError):
                client, _ = listening.accept()
                with client:
                    server.connect(("127.0.0.1", port))
                    there = threading.Thread(target=_passes_on, args=(CLIENT, client, server, change))
                    there.start()
                    _passes_on(SERVER, server, client, change)
                    there.join()
        thread = threading.Thread(target=serve)
        thread.start()
        try:
            yield int(listening.getsockname()[1])
        finally:
            with suppress(OSError):
                listening.shutdown(socket.SHUT_RDWR)
            with suppress(OSError):
                server.shutdown(socket.SHUT_RDWR)
            thread.join()
