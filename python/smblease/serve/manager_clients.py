"""The clients of the manager: one for each ClientGuid, and one for each oplock; and the shell's own, for a moment each."""
from __future__ import annotations

import itertools
from typing import TYPE_CHECKING
from uuid import UUID

from smblease.serve.chance import Chance
from smblease.serve.opens import ManagerClient

if TYPE_CHECKING:
    from smblease.serve.connection import Connection

# From here on numbers are of clients that no record has.
SHELLS = 1 << 62


class ManagerClients:
    """Numbers count up, and none is given twice."""

    def __init__(self, chance: Chance) -> None:
        self._chance = chance
        self._next, self._next_of_shell = itertools.count(1), itertools.count(SHELLS)
        self.by_number: dict[int, ManagerClient] = {}
        self._by_guid: dict[bytes, ManagerClient] = {}
        # oplocks by the ClientGuid and the CreateGuid of their opens, and these by the oplock
        self._by_create_guid: dict[tuple[bytes, bytes], ManagerClient] = {}
        self._create_guids: dict[int, tuple[bytes, bytes]] = {}

    def numbered(self, number: int) -> ManagerClient | None:
        return self.by_number.get(number)

    def of_guid(self, guid: bytes) -> ManagerClient | None:
        return self._by_guid.get(guid)

    def of(self, connection: Connection) -> list[ManagerClient]:
        return [it for it in self.by_number.values() if connection in it.connections]

    def take(self, guid: bytes | None, is_shells: bool = False) -> ManagerClient:
        number, key = next(self._next_of_shell if is_shells else self._next), UUID(bytes=b"oplock" + self._chance.take(10))
        client = ManagerClient(number, guid, own_key=key)
        self.by_number[client.number] = client
        if guid is not None:
            self._by_guid[guid] = client
        return client

    def of_create_guid(self, guid: bytes | None, create_guid: bytes | None) -> ManagerClient | None:
        """The oplock whose open this ClientGuid made under this CreateGuid."""
        return self._by_create_guid.get((guid or b"", create_guid or b""))

    def note_create_guid(self, guid: bytes, create_guid: bytes, oplock: ManagerClient) -> None:
        self._by_create_guid[guid, create_guid] = oplock
        self._create_guids[oplock.number] = guid, create_guid

    def free(self, client: ManagerClient) -> None:
        del self.by_number[client.number]
        names = self._create_guids.pop(client.number, None)
        if names and self._by_create_guid.get(names) is client:
            del self._by_create_guid[names]
        if client.guid is not None:
            del self._by_guid[client.guid]
