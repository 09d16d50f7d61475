"""A share that is served on loopback by a process of its own, for tests of clients, and what steers it (docs/CLIENT_TESTS.md)."""
from __future__ import annotations

import contextlib
import uuid
from collections.abc import Iterator
from dataclasses import dataclass
from pathlib import Path
from typing import Union

from smblease.drive.faults import DriveFault
from smblease.drive.headers import Command
from smblease.program import find_program
from smblease.serve.server_process import ServerProcess
from smblease.values import LeaseState, Status

# By its number in the record, in the order in which clients came, or its ClientGuid, whose bytes are in the order of the wire.
Client = Union[int, bytes, uuid.UUID]
Key = Union[bytes, uuid.UUID]
# The name of a command, or NOTIFICATION.
Kind = Union[str, Command]


class Control:
    """Each method answers whether there was anything to do it to. What can't be done as it is asked for raises DriveFault."""

    def __init__(self, server: ServerProcess) -> None:
        self._server = server

    def break_lease(self, client: Client, key: Key | None, state: LeaseState | str) -> bool:
        """Has a lease lowered to a state, or where there is no key the oplock that the client is."""
        return self._tell("break", _client(client), _key(key), str(state))

    def expire(self, client: Client, key: Key | None) -> bool:
        """Ends the timer of a break."""
        return self._tell("expire", _client(client), _key(key))

    def scavenge(self, file_id: int) -> bool:
        """Ends the timer of a durable open, by the persistent half of its FileId."""
        return self._tell("scavenge", str(file_id))

    def log_off(self, client: Client) -> bool:
        """Ends its sessions."""
        return self._tell("logoff", _client(client))

    def disconnect(self, client: Client) -> bool:
        """Ends its connections."""
        return self._tell("disconnect", _client(client))

    def refuse(self, kind: Kind, status: Status | int | str, client: Client | None = None) -> bool:
        """Has the next request of a kind answered with an error, and not carried out."""
        word = status if isinstance(status, str) else f"{int(status):#010x}"
        return self._tell("refuse", word, *_of(kind, client))

    def drop(self, kind: Kind, client: Client | None = None) -> bool:
        """Has the next answer of a kind not sent."""
        return self._tell("drop", *_of(kind, client))

    def delay(self, kind: Kind, seconds: float, client: Client | None = None) -> bool:
        """Has the next answer of a kind sent so much later."""
        return self._tell("delay", str(seconds), *_of(kind, client))

    def reorder(self, kind: Kind, client: Client | None = None) -> bool:
        """Has the next answer of a kind sent after the message that comes after it."""
        return self._tell("reorder", *_of(kind, client))

    def _tell(self, *words: str) -> bool:
        return self._server.tell(" ".join(words))


def _client(client: Client) -> str:
    return str(uuid.UUID(bytes=client) if isinstance(client, bytes) else client)


def _key(key: Key | None) -> str:
    return "oplock" if key is None else (key if isinstance(key, bytes) else key.bytes).hex()


def _of(kind: Kind, client: Client | None) -> list[str]:
    return [kind.name if isinstance(kind, Command) else kind, *([] if client is None else [_client(client)])]


@dataclass(frozen=True)
class SteeredShare:
    """A share, and the folder that it is: files that are put there before a client connects are there for it."""

    address: str
    port: int
    name: str
    folder: Path
    control: Control


@contextlib.contextmanager
def steered_share(folder: Path, *words: str) -> Iterator[SteeredShare]:
    """Serves a folder, with these words of serve/run. The server may not end in another way than it should."""
    server = ServerProcess(find_program(), words=["--folder", str(folder), "--writable", *words])
    try:
        yield SteeredShare(server.place.host, server.place.port, server.place.share, folder, Control(server))
    finally:
        server.close()
    if server.status:
        raise DriveFault(f"the server ended with status {server.status}: {server.complaints.strip() or server.verdict}")
