"""A connection: its bytes, its requests in their compounds, and what is answered."""
from __future__ import annotations

import asyncio
import logging
import time
from collections import deque
from typing import TYPE_CHECKING

from smblease import Status
from smblease.drive.headers import ASYNC, FROM_SERVER, UNASKED, Command, Unreadable
from smblease.drive.packets import ENCRYPTED
from smblease.serve.asks import Handling
from smblease.serve.chains import Chain, Pending
from smblease.serve.dialects import Dialect
from smblease.serve.encrypted_requests import opened_requests
from smblease.serve.faults_on_demand import NOTIFICATION, REFUSES, Peer
from smblease.serve.former_keys import FormerKeys
from smblease.serve.negotiation import NO_GUID, Terms, negotiated_by_name
from smblease.serve.opens import ManagerClient
from smblease.serve.outgoing import Outgoing
from smblease.serve.packets import (LONGEST_FRAME, LONGEST_WITHOUT_SESSION, MOST_IN_FRAME, Answer, Credits, Frames,
                                    RequestMessage, Response, framed, split_compound)
from smblease.serve.request import WITHOUT_SESSION, WITHOUT_TREE, Request
from smblease.serve.session_wait import SessionWait
from smblease.serve.sessions import Session
from smblease.serve.signing import Signer
from smblease.serve.status_error import EXHAUSTED, StatusError, name_of
from smblease.serve.transforms import SessionEncryption

if TYPE_CHECKING:
    from smblease.serve.server import Server

LOG = logging.getLogger("serve")
MOST_PENDING = 512
# Seconds after which others are served, between two requests.
TURN = 0.002
CANCEL = Command.CANCEL
OLD_PROTOCOL = b"\xffSMB"


class Connection(asyncio.Protocol):  # pylint: disable=too-many-instance-attributes  # it has what came and what goes
    def __init__(self, server: Server) -> None:
        self.server = server
        # of IP, and with its port
        self.address = self.place = ""
        self.guid: bytes | None = None
        self.terms: Terms | None = None
        self.dialect: Dialect | None = None
        self.is_open = True
        self.client: ManagerClient | None = None
        self.sessions: dict[int, Session] = {}
        self.former_keys = FormerKeys()
        self.waiting = SessionWait(self)
        self._transport = asyncio.Transport()
        self._frames = Frames()
        self._credits = Credits()
        # when bytes came last
        self.heard = 0.0
        self._is_unread = False
        # those of a frame that aren't begun or go on
        self._chains: deque[Chain] = deque()
        self._turn_ends = 0.0
        self._is_due = False
        self.outgoing = Outgoing(self)
        self._pending: dict[int, Pending] = {}
        self._says_all = LOG.isEnabledFor(logging.DEBUG)

    @property
    def unfinished(self) -> int:
        """Bytes of a frame that hasn't come whole."""
        return len(self._frames)

    @property
    def unread(self) -> int:
        """Bytes that the client hasn't read yet."""
        return self.outgoing.unread if self.is_open else 0

    @property
    def peer(self) -> Peer:
        client = self.client or (self.server.clients.of_guid(self.guid) if self.guid else None)
        return Peer(client.number if client else None, self.guid)

    def has_turn(self) -> bool:
        """Whether more may be done now: the client reads what it is answered, and others don't wait for long."""
        return not self._is_unread and time.monotonic() < self._turn_ends

    @property
    def tasks(self) -> list[Pending]:
        """Those of requests that aren't answered for good."""
        return list(self._pending.values())

    def connection_made(self, transport: asyncio.BaseTransport) -> None:
        assert isinstance(transport, asyncio.Transport)
        self._transport = transport
        self.address, port = (*(transport.get_extra_info("peername") or ("", 0)),)[:2]
        self.place = f"{self.address}:{port}"
        self.outgoing.begin(transport)
        self.heard = self.server.loop.time()
        self.waiting.begin()
        self.server.connect(self)

    def data_received(self, data: bytes) -> None:
        self.heard = self.server.loop.time()
        self._frames.add(data)
        self._take_frames()
        if not self.client and not self.waiting.count():
            self.close()

    def eof_received(self) -> None:
        self.close()

    def connection_lost(self, _: Exception | None) -> None:
        self.close()

    def pause_writing(self) -> None:
        self._is_unread = True
        self._transport.pause_reading()

    def resume_writing(self) -> None:
        self._is_unread = False
        self._transport.resume_reading()
        self._take_frames()

    def _take_frames(self) -> None:
        """What came, one after the other, as long as the client reads what it is answered, and until others have their turn.
        Small answers go together."""
        self.outgoing.collects, self._turn_ends = True, time.monotonic() + TURN
        try:
            while self.is_open and not self._is_unread and self._take_next():
                if self._is_unread or time.monotonic() >= self._turn_ends:
                    self._give_turn()
                    break
        except (Unreadable, *EXHAUSTED):
            self.outgoing.flush()
            self.close()
        finally:
            self.outgoing.collects = False
            self.outgoing.flush()

    def _take_next(self) -> bool:
        """What is left of a frame, else the next one; whether there was any."""
        if self._chains:
            self._chains.popleft().go_on()
            return True
        frame = self._frames.next(LONGEST_FRAME if self.client else LONGEST_WITHOUT_SESSION)
        if frame is not None:
            self._take(frame)
        return frame is not None

    def _give_turn(self) -> None:
        """Goes on once others were served; nothing more is read before."""
        if not self._is_due and self.is_open:
            self._is_due = True
            self._transport.pause_reading()
            self.server.loop.call_soon(self._take_turn)

    def _take_turn(self) -> None:
        self._is_due = False
        if self.is_open and not self._is_unread:
            self._transport.resume_reading()
            self._take_frames()

    def go_on_later(self, chain: Chain) -> None:
        self._chains.appendleft(chain)
        if not self.outgoing.collects:
            self._give_turn()

    def _take(self, frame: bytes) -> None:
        if frame[:4] == OLD_PROTOCOL:
            self._old_negotiate(frame)
        elif frame:
            chain: Chain | None = None
            for message in (opened_requests(self.sessions, frame) if frame[:4] == ENCRYPTED
                            else split_compound(frame, MOST_IN_FRAME if self.terms else 1)):
                self._credit(message)
                if message.command is CANCEL:
                    self._cancel(message)
                elif message.is_related and chain:
                    chain.add(message)
                else:
                    if chain:
                        self._chains.append(chain)
                    chain = Chain(self, message)
            if chain and self._chains:
                self._chains.append(chain)
                chain = None
            if chain or self._chains:
                (chain or self._chains.popleft()).go_on()

    def _credit(self, message: RequestMessage) -> None:
        """A request without its credits ends the connection (3.3.5.2.3), and so does one before NEGOTIATE."""
        command = message.command
        if message.flags & FROM_SERVER:
            raise Unreadable
        if self.dialect is Dialect.SMB_2_0_2:
            message.forget_charge()
        if command is not CANCEL and (self.guid is None and command is not Command.NEGOTIATE
                                      or not self._credits.take(message.identifier, message.charge or 1)):
            raise Unreadable

    def _old_negotiate(self, frame: bytes) -> None:
        if self.terms or not self._credits.take(0, 1):
            raise Unreadable
        terms, answer = negotiated_by_name(self.server, frame)
        if terms:
            self.agree(terms)
        self.outgoing.send(framed([Response(Command.NEGOTIATE, answer.status, 0, self._credits.grant(1), 0, 0, answer.body)]))

    def agree(self, terms: Terms) -> None:
        """What it speaks from here on. A client of 2.0.2 may have no ClientGuid (2.2.3); it gets one that no other client has."""
        guid = terms.asked.guid
        self.terms, self.dialect = terms, terms.dialect
        is_nobody = terms.dialect is Dialect.SMB_2_0_2 and guid == NO_GUID
        self.guid = self.server.settings.chance.take(len(guid)) if is_nobody else guid

    @property
    def seals(self) -> SessionEncryption | None:
        """What a message is sealed by that is for none of its sessions."""
        return next((it.seals for it in self.sessions.values() if it.seals), None)

    def begin(self, pending: Pending) -> None:
        server = self.server
        self._pending[pending.request.message.identifier] = pending
        if server.log:
            server.log.begun(pending)
        server.begun.append(pending)
        server.host.start(pending)
        if pending.is_over and server.begun == [pending] and not server.script:
            server.begun.clear()
        else:
            server.send_interim_responses()

    def handle(self, request: Request, failed: int | None) -> Answer | Handling:
        """The answer to a request, or what handles it. `failed` is what became of the create that it is related to."""
        if failed:
            raise StatusError(failed)
        server, message = self.server, request.message
        command = message.command
        handler = server.commands.handlers.get(command)
        if handler is None:
            raise StatusError(Status.INVALID_PARAMETER)
        if len(self._pending) > MOST_PENDING:
            raise StatusError(Status.INSUFFICIENT_RESOURCES)
        if command not in WITHOUT_SESSION:
            session = request.enter_session()
            if session.signs or message.is_signed:
                session.check_signature(message)
        if server.faults.waiting:
            self._check_refusal(request)
        if command not in WITHOUT_TREE and request.enter_tree().is_pipe:
            handler = server.commands.handler_of_pipes(command)
        message.check_form()
        return handler(request)

    def _check_refusal(self, request: Request) -> None:
        """Somebody may want it to be refused."""
        fault = self.server.faults.take(REFUSES, request.message.name, self.peer)
        if fault:
            request.fault = fault.action
            raise StatusError(fault.status)

    def answered(self, pending: Pending, answer: Answer) -> None:
        message = pending.request.message
        self._pending.pop(message.identifier, None)
        if self._says_all:
            LOG.debug("client %s: %s %d: %s", self.client.number if self.client else "-", message.name, message.identifier,
                      name_of(answer.status))
        pending.is_answered = True
        if self.is_open:
            pending.chain.answered(pending, answer)
        if self.server.log:
            self.server.log.answered(pending, answer)

    def response(self, pending: Pending, answer: Answer, session: int, tree: int) -> Response:
        message = pending.request.message
        signer = answer.signer or (self._signer_of(session, message) if message.is_signed else None)
        granted = self._credits.grant(message.credits_asked) if pending.async_id is None else 0
        flags = FROM_SERVER | (message.flags & 4)
        made = Response(message.code, answer.status, message.identifier, granted, session, tree, answer.body, answer.data,
                        message.charge, flags, pending.async_id, None if message.encryption else signer, message.encryption)
        if answer.integrity:
            answer.integrity.add(made.header(0) + made.body)
        return made

    def _signer_of(self, session: int, message: RequestMessage) -> Signer | None:
        """That of a session, one that is over too. Of one that is another connection's only who knows its key gets an answer
        that is signed."""
        found = self.sessions.get(session)
        if found:
            return found.signer
        elsewhere = self.server.sessions.get(session)
        return elsewhere.signer if elsewhere and elsewhere.has_signed(message) else self.former_keys.of(session)

    def send_interim_response(self, pending: Pending) -> None:
        """STATUS_PENDING, for a request that waits (3.3.4.2)."""
        if pending.is_answered or not self.is_open:
            return
        self.outgoing.send_held()
        message = pending.request.message
        interim = self.response(pending, Answer(Status.PENDING), pending.request.session_id, pending.request.tree_id)
        pending.async_id = interim.async_id = next(self.server.async_ids)
        interim.flags = FROM_SERVER | ASYNC | (message.flags & 4)
        if interim.signer and interim.signer.is_by_number:
            # The answer has the same number.
            interim.signer = None
        self.outgoing.send(framed([interim]))

    def _cancel(self, message: RequestMessage) -> None:
        """A request that waits in the manager is taken back."""
        wanted = message.async_id
        found = next((it for it in self._pending.values() if it.async_id == wanted), None) if wanted is not None \
            else self._pending.get(message.identifier)
        session = self.sessions.get(found.request.session_id) if found else None
        try:
            if session:
                session.check_signature(message)
        except StatusError:
            return
        if found:
            self.server.host.withdraw(found)
            self.server.settle()

    def notify(self, body: bytes, encryption: SessionEncryption | None = None) -> None:
        """A break (2.2.23)."""
        self.outgoing.send_held()
        response = Response(Command.OPLOCK_BREAK, Status.SUCCESS, UNASKED, 0, 0, 0, body, encryption=encryption)
        if self.outgoing.keep_back(NOTIFICATION, response) is None:
            self.outgoing.send(framed([response]))

    def end(self) -> None:
        """Closes it after what was answered."""
        self.outgoing.send_all()
        self.close()

    def close(self) -> None:
        if self.is_open:
            self.is_open = False
            self._chains.clear()
            self.outgoing.forget()
            self._transport.abort()
            self.waiting.end()
            self.server.connections.discard(self)
            for session in list(self.sessions.values()):
                self.server.end_session(session)
            self.waiting.count()
