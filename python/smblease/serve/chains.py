"""Requests of a compound, which are done one after the other, and their answers."""
from __future__ import annotations

from dataclasses import replace
from typing import TYPE_CHECKING

from smblease import Status
from smblease.drive.headers import Command
from smblease.serve.asks import Yielded
from smblease.serve.manager_host import Task
from smblease.serve.packets import Answer, RequestMessage, Response, framed
from smblease.serve.request import Request

if TYPE_CHECKING:
    from smblease.serve.connection import Connection

CREATE = Command.CREATE
# Past so many bytes that a client hasn't read its requests wait.
UNREAD = 1 << 20


class Pending(Task):
    """A request that isn't answered for good, and the task of handling it."""

    # what a log has of it from its beginning: the client's number, and the name of a file
    number: int | None = None
    name: str | None = None

    def __init__(self, request: Request, chain: Chain, failed: int | None) -> None:  # pylint: disable=super-init-not-called
        """`failed` is what became of the create that it is related to."""
        self._prepare()
        self.request, self.chain, self.failed = request, chain, failed
        self.async_id: int | None = None
        self.is_answered = False

    def begin(self, _: object) -> Yielded | Answer:
        handled = self.request.connection.handle(self.request, self.failed)
        if isinstance(handled, Answer):
            return handled
        self.handling = handled
        return next(handled)

    def ended(self, answer: Answer) -> None:
        self.request.connection.answered(self, answer)


class Chain:
    """A request and those that are related to it, which are done one after the other."""

    def __init__(self, connection: Connection, first: RequestMessage) -> None:
        self._connection = connection
        # the bytes of answers that wait for those after them
        self.held = 0
        self._previous: int | None = None
        self._is_waiting = self._is_going = False
        # and how many of them aren't begun
        self._requests, self._left = [first], 1
        self._responses: list[Response] = []
        self._session, self._tree = first.session, first.tree
        # The first request of a frame is related to none (3.3.5.2.7.2).
        self._failed: int | None = Status.INVALID_PARAMETER if first.is_related else None

    def add(self, related: RequestMessage) -> None:
        self._requests.append(related)
        self._left += 1

    def go_on(self) -> None:
        """Begins each request once the one before it is answered, until it is others' turn; sends the answers after the last."""
        connection = self._connection
        self._is_going = True
        while self._left and not self._is_waiting and connection.is_open:
            self._is_waiting = True
            message = self._requests[-self._left]
            self._left -= 1
            if message.is_related:
                request = Request(message, connection, self._session, self._tree, self._previous)
                connection.begin(Pending(request, self, self._failed))
            else:
                request = Request(message, connection, message.session, message.tree, self._previous)
                connection.begin(Pending(request, self, None))
            if self._left and not self._is_waiting and not connection.has_turn():
                break
        self._is_going = False
        if self._left and not self._is_waiting:
            connection.go_on_later(self)

    @property
    def has_answers(self) -> bool:
        return bool(self._responses)

    def take_answers(self) -> bytes:
        """A frame of the answers that there are."""
        responses, self._responses, self.held = self._responses, [], 0
        return frame_of(responses)

    def answered(self, pending: Pending, answer: Answer) -> None:
        request, connection = pending.request, self._connection
        self._session = answer.session or request.session_id
        self._tree = answer.tree or request.tree_id
        if self._left:
            self._note(request, answer)
        response = connection.response(pending, answer, self._session, self._tree)
        fault = None
        if connection.server.faults.waiting:
            fault = connection.outgoing.keep_back(request.message.name, response, request.fault)
            request.fault = fault or request.fault
        if fault is None:
            self._responses.append(response)
        self._send(response.length() if fault is None and self._left else 0)
        self._is_waiting = False
        if self._left and not self._is_going:
            connection.go_on_later(self)

    def _note(self, request: Request, answer: Answer) -> None:
        """What those after it are related to."""
        opened = answer.opened if answer.opened is not None else request.named
        self._previous = self._previous if opened is None else opened
        if request.message.command is CREATE and answer.status >> 30 == 3:
            self._failed = answer.status

    def _send(self, more: int) -> None:
        """The last answer goes at once, after what other chains hold: what is decided next may be for the same client."""
        outgoing = self._connection.outgoing
        holding = outgoing.holding
        self.held += more
        if self._left and self._is_going and self.held <= UNREAD:
            holding[self] = None
        elif holding and not (self in holding and len(holding) == 1):
            holding[self] = None
            outgoing.send_held()
        else:
            if holding:
                holding.clear()
            if self._responses:
                outgoing.send(self.take_answers())


def frame_of(responses: list[Response]) -> bytes:
    """A frame; where there is no memory for it, one that has no bytes of files."""
    try:
        return framed(responses)
    except MemoryError:
        refused = Answer(Status.INSUFFICIENT_RESOURCES)
        return framed([replace(it, status=refused.status, body=refused.body, data=b"") if it.data else it for it in responses])
