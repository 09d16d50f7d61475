"""What of a CREATE is heeded at dialects other than 2.1: no leases at 2.0.2, and at those of 3 leases and durable opens of either
version."""
from __future__ import annotations

import contextlib
from collections.abc import Iterator
from dataclasses import dataclass, replace

from smblease import CreateAsk, VersionsAsk
from smblease.drive.headers import REPLAY
from smblease.serve.create_parameters import DURABLE_2, CreateParameters
from smblease.serve.opens import LEASE, NO_LEVEL
from smblease.serve.request import Handlers, Request
from smblease.serve.status_error import StatusError

# Milliseconds that an open of DH2Q lasts at most without its connection, and where its client names no time.
LONGEST = 300_000


def heeded_at_2_0_2(wanted: CreateParameters) -> CreateParameters:
    level = NO_LEVEL if wanted.level == LEASE else wanted.level
    return replace(wanted, level=level, ask=CreateAsk(durable=wanted.ask.durable, reconnect=wanted.ask.reconnect))


@dataclass(frozen=True)
class Arrival:
    """What a create asks for, and the FileId of the open that it made before, if it is a replay (3.3.5.9.10)."""

    wanted: CreateParameters
    again: int | None


class Arrivals(Handlers):
    """Creates at dialects of 3 that have contexts."""

    @contextlib.contextmanager
    def arrive(self, request: Request, wanted: CreateParameters) -> Iterator[Arrival]:
        """Its CreateGuid is known until it is answered, whatever it waits for, so that a replay of it is refused."""
        wanted = replace(wanted, is_of_3=True)
        host, tag = self._server.host, self._server.host.take_tag()
        client = self._client_of(request, wanted)
        assert host.versions
        found = host.versions.asked(client, tag, wanted.text, bool(request.message.flags & REPLAY))
        try:
            if found.status is not None:
                raise StatusError(found.status)
            yield self._arrival(wanted, found)
        finally:
            host.forget(client, tag)

    def _client_of(self, request: Request, wanted: CreateParameters) -> int:
        """The manager's client; an oplock is one by itself, which is found by the CreateGuid of its open."""
        oplock = self._server.clients.of_create_guid(request.client.guid, wanted.create_guid)
        return (oplock or request.client).number

    def _arrival(self, wanted: CreateParameters, found: VersionsAsk) -> Arrival:
        if found.ask is None:
            return Arrival(wanted, found.again)
        return Arrival(replace(wanted, ask=found.ask, timeout=self._timeout(wanted.others.get(DURABLE_2))), None)

    def _timeout(self, durable: bytes | None) -> int:
        """What is answered to DH2Q."""
        if durable is None:
            return 0
        return min(int.from_bytes(durable[:4], "little") or LONGEST, LONGEST, int(1000 * self._server.settings.durable_timer))
