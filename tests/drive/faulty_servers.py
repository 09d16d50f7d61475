"""Servers that break the rules of leases: the proved one, and what goes wrong between it and its clients."""
from __future__ import annotations

import uuid
from collections.abc import Iterator
from dataclasses import replace

from smblease import CreateAnswer, CreateAsk, LeaseState, Notification, Server
from smblease.outs import Out, Sent
from smblease.replies import AcknowledgeDone, Break, Created
from smblease.requests import AcknowledgeRequest, CreateRequest, Request

Key = tuple[int, uuid.UUID]


class FaultyServer:
    """Passes all on, and changes what is given out."""

    def __init__(self, contents: list[bytes]) -> None:
        self._server = Server(contents)
        # what each client wanted last under a key, and what it was given
        self.wanted: dict[Key, LeaseState] = {}
        self.given: dict[Key, LeaseState] = {}

    def _gives(self, outs: tuple[Out, ...]) -> tuple[Out, ...]:
        return tuple(changed for out in outs for changed in self._changed(out))

    def _changed(self, out: Out) -> Iterator[Out]:
        if isinstance(out, Sent) and isinstance(out.reply, Created):
            yield Sent(out.client, replace(out.reply, contexts=self._granted(out.client, out.reply.contexts)))
        elif isinstance(out, Sent) and isinstance(out.reply, Break):
            notice = Notification.read(out.reply.message)
            self.given[out.client, notice.key] = notice.new
            yield from self.breaks(out, notice)
        else:
            yield out

    def _granted(self, client: int, contexts: bytes) -> bytes:
        answer = CreateAnswer.read(contexts)
        if answer.key is None or answer.breaking:
            return contexts
        state = self.grants((client, answer.key), answer.state)
        self.given[client, answer.key] = state
        return replace(answer, state=state).write()

    def grants(self, key: Key, state: LeaseState) -> LeaseState:
        """What is granted under a key in place of a state."""
        assert key in self.wanted
        return state

    def breaks(self, out: Sent, notice: Notification) -> Iterator[Out]:
        """What is given out in place of a break."""
        assert notice.key
        yield out

    def receive(self, client: int, request: Request) -> tuple[Out, ...]:
        if isinstance(request, CreateRequest):
            ask = CreateAsk.read(request.contexts)
            if ask.key is not None:
                self.wanted[client, ask.key] = ask.state
        return self._gives(self._server.receive(client, request))

    def join(self, client: int) -> tuple[Out, ...]:
        return self._gives(self._server.join(client))

    def cut(self, client: int) -> tuple[Out, ...]:
        return self._gives(self._server.cut(client))

    def expire(self, client: int, key: uuid.UUID) -> tuple[Out, ...]:
        return self._gives(self._server.expire(client, key))

    def scavenge(self, file_id: int) -> tuple[Out, ...]:
        return self._gives(self._server.scavenge(file_id))

    def breaking(self, client: int, key: uuid.UUID) -> bool:
        return self._server.breaking(client, key)

    def kept(self, client: int, file: int) -> int | None:
        return self._server.kept(client, file)


class GrantsWhatIsWanted(FaultyServer):
    """It grants all that is wanted, also write caching beside the leases of others."""

    def grants(self, key: Key, state: LeaseState) -> LeaseState:
        return self.wanted[key]


class LeasesOutliveOpens(FaultyServer):
    """A lease goes on after its last open: the next open has it again, whoever holds one since."""

    def grants(self, key: Key, state: LeaseState) -> LeaseState:
        return state | self.given.get(key, LeaseState.NONE)


class WaitsForNobody(FaultyServer):
    """It sends breaks, and goes on as if they were acknowledged."""

    def breaks(self, out: Sent, notice: Notification) -> Iterator[Out]:
        yield out
        yield from self._goes_on(out.client, notice)

    def _goes_on(self, client: int, notice: Notification) -> Iterator[Out]:
        acknowledgment = notice.acknowledgment()
        if acknowledgment is not None:
            outs = self._server.receive(client, AcknowledgeRequest(acknowledgment.write()))
            yield from self._gives(tuple(it for it in outs if not _is_acceptance(it, client)))

    def receive(self, client: int, request: Request) -> tuple[Out, ...]:
        if isinstance(request, AcknowledgeRequest):
            return (Sent(client, AcknowledgeDone(request.message)),)
        return super().receive(client, request)


class BreaksNothing(WaitsForNobody):
    """It doesn't even send them."""

    def breaks(self, out: Sent, notice: Notification) -> Iterator[Out]:
        return self._goes_on(out.client, notice)


def _is_acceptance(out: Out, client: int) -> bool:
    return isinstance(out, Sent) and out.client == client and isinstance(out.reply, AcknowledgeDone)
