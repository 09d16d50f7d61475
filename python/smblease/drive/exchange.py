"""What goes over the connections: a request is sent, and all that comes of it is waited for."""
from __future__ import annotations

import time
import uuid
from dataclasses import replace

import smblease
from smblease.drive.connecting import reply_of
from smblease.drive.faults import DriveFault
from smblease.drive.peers import DrivenPeer, Unanswered
from smblease.drive.received import NOTIFICATION_ID, PATIENCE, FileId, Message
from smblease.drive.records import Arrival
from smblease.drive.tried import Tried
from smblease.drive.wire_names import WireNames
from smblease.outs import Changed, Opened
from smblease.replies import AcknowledgeDone, Break, Closed, Created, Reply, WriteDone
from smblease.requests import CreateRequest, ReadRequest, Request, WriteRequest
from smblease.values import Status

QUIET_ROUNDS = 3
BETWEEN_ROUNDS = 0.004
# How long a read or a write may be pending, while it is done and not held.
DOING = 1.0


class Exchange:
    """The connections of a run's clients, one request at a time."""

    def __init__(self, peers: dict[int, DrivenPeer], names: WireNames) -> None:
        self.tried = Tried()
        self._peers = peers
        self._names = names
        self._arrived: list[tuple[int, Message]] = []
        self._passed_over: list[int] = []
        self._sent = 0

    def send(self, client: int, request: Request, name: str) -> None:
        """Sends a request and waits for its answer, or for word that it is pending."""
        peer = self._peers[client]
        if not peer.connection:
            raise DriveFault(f"client {client} has no connection")
        self._sent += 1
        sent = Unanswered(request, self._sent, uuid.uuid4())
        number = peer.connection.send(self._names.of_request(_as_sent(peer, sent)), name, peer.file_id_for(request))
        peer.unanswered[number] = sent
        self._wait_for(client, number)

    def settled(self) -> list[Arrival]:
        """Rounds of ECHO over every connection until some bring nothing new; what came, as it came."""
        quiet = 0
        until = time.monotonic() + DOING
        while quiet < QUIET_ROUNDS or (self._is_doing() and time.monotonic() < until):
            if quiet:
                time.sleep(BETWEEN_ROUNDS)
            before = len(self._arrived)
            asked = [(client, peer.connection.echo()) for client, peer in self._peers.items() if peer.connection]
            for client, number in asked:
                self._wait_for(client, number)
                # The answer to the ECHO is no message of the schedule.
                self._arrived.pop()
            quiet = quiet + 1 if len(self._arrived) == before else 0
        arrivals = [self._arrival(client, message) for client, message in self._arrived]
        self._arrived.clear()
        return [it for it in arrivals if it]

    def passed_over(self) -> list[int]:
        """The clients to which breaks came that are older than what they know, since this was asked last."""
        found, self._passed_over = self._passed_over, []
        return found

    def _is_doing(self) -> bool:
        """Whether the request that was sent last is a read or a write without an answer."""
        answered = {(client, message.number) for client, message in self._arrived}
        return any(sent.place == self._sent and isinstance(sent.request, (ReadRequest, WriteRequest))
                   and (client, number) not in answered
                   for client, peer in self._peers.items() for number, sent in peer.unanswered.items())

    def _wait_for(self, client: int, number: int) -> None:
        connection = self._peers[client].connection
        until = time.monotonic() + PATIENCE
        while True:
            message = connection.receive(until) if connection else None
            if message is None:
                raise DriveFault(f"the server doesn't answer client {client}")
            if message.status != Status.PENDING:
                self._arrived.append((client, message))
            if message.number == number:
                return

    def _arrival(self, client: int, message: Message) -> Arrival | None:
        peer = self._peers[client]
        if message.number == NOTIFICATION_ID:
            return self._break(client, _noted_break(client, peer, self._names.of_reply(Break(message.data))))
        sent = peer.unanswered.pop(message.number, None)
        if sent is None:
            raise DriveFault(f"an answer to no request came to client {client}")
        reply, file_id = reply_of(sent.request, message)
        reply = _as_taken(client, peer, sent, self._names.of_reply(reply))
        self.tried = self.tried.after(sent.request, reply)
        peer.replies.append(reply)
        return Arrival(client, sent.place, reply, _effect(client, peer, sent.request, reply, file_id))

    def _break(self, client: int, notice: Break | None) -> Arrival | None:
        if notice is None:
            self._passed_over.append(client)
            return None
        self.tried = self.tried.after(None, notice)
        self._peers[client].replies.append(notice)
        return Arrival(client, client, notice)


def _as_sent(peer: DrivenPeer, sent: Unanswered) -> Request:
    """A request with the contexts that its connection has."""
    if not isinstance(sent.request, CreateRequest):
        return sent.request
    return replace(sent.request, contexts=peer.versions.ask(sent.request.contexts, sent.guid))


def _as_taken(client: int, peer: DrivenPeer, sent: Unanswered, reply: Reply) -> Reply:
    """An answer with the contexts that the client's machine knows."""
    if not isinstance(reply, Created):
        return reply
    try:
        return replace(reply, contexts=peer.versions.answered(reply.file_id, sent.guid, reply.contexts))
    except ValueError:
        raise DriveFault(f"the contexts of an answer to client {client} can't be read") from None


def _noted_break(client: int, peer: DrivenPeer, came: Reply) -> Break | None:
    """A notification, which its peer is told of; none where the client's machine isn't given it."""
    data = came.message if isinstance(came, Break) else b""
    try:
        notice = smblease.Notification.read(data)
        taken = peer.versions.noticed(data[:smblease.messages.NOTIFICATION_SIZE])
    except ValueError:
        raise DriveFault(f"what came to client {client} unasked is no break of a lease") from None
    file = peer.file_of(notice.key)
    if notice.ack_required and file is not None:
        peer.breaking[file] = time.monotonic()
    return None if taken is None else Break(taken)


def _effect(client: int, peer: DrivenPeer, request: Request, reply: Reply, file_id: FileId | None) -> Opened | Changed | None:
    """What an answer shows that the server did, which the client's peer is told of too."""
    if isinstance(request, CreateRequest) and isinstance(reply, Created) and file_id:
        peer.is_opened(request.file, file_id)
        return None if peer.versions.connects_again(request.contexts) else Opened(request.file, client)
    if isinstance(request, CreateRequest):
        peer.versions.refused(request.contexts)
    if isinstance(request, WriteRequest) and isinstance(reply, WriteDone):
        if request.file_id not in peer.files:
            raise DriveFault(f"client {client} wrote by a FileId that it doesn't have")
        return Changed(peer.files[request.file_id], client, request.number, request.offset, request.data)
    if isinstance(reply, Closed):
        peer.is_closed(reply.file_id)
    if isinstance(request, smblease.AcknowledgeRequest) and isinstance(reply, AcknowledgeDone):
        acknowledged = peer.file_of(smblease.Acknowledgment.read(request.message).key)
        if acknowledged is not None:
            peer.breaking.pop(acknowledged, None)
    return None
