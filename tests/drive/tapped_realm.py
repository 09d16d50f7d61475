"""A server and its clients over connections that are tapped: machines of the library, and SMB2 messages between them."""
from __future__ import annotations

import random
import struct
import uuid
from collections.abc import Callable
from dataclasses import dataclass, field
from typing import Any

from smblease import Client, LeaseState
from smblease.outs import Out, Sent
from smblease.replies import Break, Created, Reply
from smblease.requests import AcknowledgeRequest, CreateRequest, Request
from smblease.steps import Step

from tests.drive import hand_made
from tests.drive.hand_made import of_session
from tests.drive.taps import CLIENT, SERVER, Connection
from tests.drive.wire_messages import answers, pending_message, reply_message, request_message

NEGOTIATE, SESSION_SETUP, TREE_CONNECT = "negotiate", "session", "tree"
NEXT = {NEGOTIATE: SESSION_SETUP, SESSION_SETUP: TREE_CONNECT}
Numbered = tuple[Request, int]


@dataclass
class Waiting:
    """The requests of a connection that the server took and didn't answer yet, with their MessageIds, in their order."""

    requests: list[Numbered] = field(default_factory=list)

    def answered(self, reply: Reply, now: Numbered | None) -> int:
        """The MessageId of the request that a reply answers, of which `now` came last. A create that is answered as it comes
        may overtake earlier ones on its file; nothing else overtakes what it could be taken for."""
        if isinstance(reply, Break):
            return 0
        found = [it for it in self.requests if answers(reply, it[0])]
        is_now = now in found and now is not None and isinstance(now[0], (CreateRequest, AcknowledgeRequest))
        one = now if is_now and now is not None else found[0]
        self.requests.remove(one)
        return one[1]


@dataclass
class Peer:
    """A client: its machine, and the connections that it uses and that the server has of it."""

    machine: Client
    used: Connection | None = None
    had: Connection | None = None
    waiting: Waiting = field(default_factory=Waiting)
    session: int = 0
    # the FileIds that it was given
    known: list[int] = field(default_factory=list)


class Realm:
    """A server, with the methods of a smblease.Server, and its clients, which are numbered from 1."""

    def __init__(self, chance: random.Random, server: Any, guids: list[uuid.UUID], files: int,
                 connected: Callable[[int], Connection], previous: bool = False) -> None:
        self.server, self.guids, self.files = server, guids, files
        self.peers = {client: Peer(Client(guid, files)) for client, guid in enumerate(guids, 1)}
        # how many FileIds were given, at most
        self.opened = 0
        self._chance, self._connected, self._previous = chance, connected, previous
        self._asked = {NEGOTIATE: self._negotiate, SESSION_SETUP: self._session_setup, TREE_CONNECT: self._tree_connect}

    # ---- clients

    def clashes(self) -> bool:
        """Whether a client believes that it caches writes of a file, and another one that it caches the file."""
        for file in range(1, self.files + 1):
            caches = [it for it in (peer.machine.belief(file) for peer in self.peers.values()) if it]
            if len(caches) > 1 and any(LeaseState.W in it for it in caches):
                return True
        return False

    def connects(self, client: int) -> None:
        connection = self._connected(client)
        self.peers[client].used = connection
        self._shakes(connection, NEGOTIATE)

    def _shakes(self, connection: Connection, step: str) -> None:
        connection.sends(CLIENT, (self._asked[step](connection),), (step,))

    def _negotiate(self, connection: Connection) -> bytes:
        """One client has one ClientGuid at all servers, of which its machine's GUID has the first byte."""
        return hand_made.negotiate(self.guids[connection.client - 1].bytes[0])

    def _session_setup(self, connection: Connection) -> bytes:
        peer, message = self.peers[connection.client], hand_made.session_setup(0)
        last, peer.session = peer.session, connection.session
        # PreviousSessionId (2.2.5)
        return message[:80] + struct.pack("<Q", last) + message[88:] if self._previous else message

    @staticmethod
    def _tree_connect(connection: Connection) -> bytes:
        return of_session(hand_made.tree_connect(), connection.session)

    def sends(self, client: int, requests: tuple[Request, ...]) -> None:
        """Requests go to the server, sometimes several as a compound."""
        connection = self.peers[client].used
        if connection is None or not requests:
            return
        numbered = tuple((request, connection.next_message()) for request in requests)
        messages = tuple(request_message(connection.session, identifier, request) for request, identifier in numbered)
        if self._chance.random() < 0.3:
            connection.sends(CLIENT, messages, numbered)
        else:
            for message, meant in zip(messages, numbered):
                connection.sends(CLIENT, (message,), (meant,))

    def asks(self, client: int, call: Callable[[Client], Step]) -> None:
        self.sends(client, call(self.peers[client].machine).requests)

    def takes(self, connection: Connection) -> None:
        """The client takes the next frame."""
        frame = connection.ways[SERVER].came.popleft()
        if frame.is_end:
            self.notices(connection)
        for meant in frame.meant:
            if meant in NEXT:
                self._shakes(connection, NEXT[meant])
            elif meant == TREE_CONNECT:
                self.asks(connection.client, Client.connect)
            elif meant is not None:
                self._takes_reply(connection.client, meant)

    def _takes_reply(self, client: int, reply: Reply) -> None:
        if isinstance(reply, Created):
            self.peers[client].known.append(reply.file_id)
        self.asks(client, lambda machine: machine.take(reply))

    def notices(self, connection: Connection) -> None:
        """The client's connection is lost, and it knows."""
        connection.left.add(CLIENT)
        peer = self.peers[connection.client]
        if peer.used is connection:
            peer.used = None
            peer.machine.notice()

    # ---- the server

    def serves(self, connection: Connection) -> None:
        """The server takes the next frame."""
        frame = connection.ways[CLIENT].came.popleft()
        if frame.is_end:
            self.drops(connection)
        for meant in frame.meant:
            if isinstance(meant, str):
                self._shaken(connection, meant)
            else:
                self._receives(connection, meant)

    def _shaken(self, connection: Connection, step: str) -> None:
        peer = self.peers[connection.client]
        if step == SESSION_SETUP and peer.had:
            self.drops(peer.had)
        message = {NEGOTIATE: hand_made.negotiated(), SESSION_SETUP: hand_made.session_set_up(connection.session),
                   TREE_CONNECT: of_session(hand_made.tree_connected(), connection.session)}[step]
        connection.sends(SERVER, (message,), (step,))
        if step == TREE_CONNECT:
            peer.had, peer.waiting = connection, Waiting()
            self.gives(self.server.join(connection.client))

    def _receives(self, connection: Connection, now: Numbered) -> None:
        peer = self.peers[connection.client]
        if peer.had is not connection:
            return
        peer.waiting.requests.append(now)
        self.gives(self.server.receive(connection.client, now[0]), now)
        if now in peer.waiting.requests and self._chance.random() < 0.8:
            connection.sends(SERVER, (pending_message(connection.session, now[1], now[0]),), (None,))

    def gives(self, outs: tuple[Out, ...], now: Numbered | None = None) -> None:
        """The server gives out replies."""
        for out in outs:
            connection = self.peers[out.client].had if isinstance(out, Sent) else None
            if isinstance(out, Sent) and connection:
                identifier = self.peers[out.client].waiting.answered(out.reply, now)
                if isinstance(out.reply, Created):
                    self.opened = max(self.opened, out.reply.file_id)
                connection.sends(SERVER, (reply_message(connection.session, identifier, out.reply),), (out.reply,))

    def drops(self, connection: Connection) -> None:
        """The server has lost a connection."""
        connection.left.add(SERVER)
        connection.ways[CLIENT].came.clear()
        peer = self.peers[connection.client]
        if peer.had is connection:
            peer.had = None
            self.gives(self.server.cut(connection.client))
