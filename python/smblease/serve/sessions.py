"""SESSION_SETUP, LOGOFF, TREE_CONNECT, TREE_DISCONNECT and ECHO (3.3.5.5 to 3.3.5.9, 3.3.5.17).

A session may become another user's: 3.3.5.5.2 keeps the key of a session that authenticates again and asks for no user, and
Windows and Samba let anybody in. What was open stays the former user's."""
from __future__ import annotations

import hmac
import struct
from dataclasses import dataclass, field
from typing import TYPE_CHECKING

from smblease import Status
from smblease.drive.headers import HEADER, Unreadable, tree_path
from smblease.serve.asks import Handling
from smblease.serve.dialects import Dialect
from smblease.serve.negotiation import SIGNING_REQUIRED, Terms
from smblease.serve.ntlm import Authentication
from smblease.serve.packets import Answer, RequestMessage
from smblease.serve.preauth_integrity import PreauthIntegrity
from smblease.serve.request import Handlers, Request
from smblease.serve.session_keys import session_keys
from smblease.serve.signing import END, START, Signer
from smblease.serve.status_error import StatusError
from smblease.serve.transforms import SessionEncryption

if TYPE_CHECKING:
    from smblease.serve.connection import Connection
    from smblease.serve.pipes import Pipe

IS_GUEST, ENCRYPT_DATA = 1, 4
BINDING = 1
DISK, PIPE = 1, 2
FULL_ACCESS = 0x1F01FF
MOST_SESSIONS, MOST_TREES = 64, 256


@dataclass(eq=False)
class Tree:
    identifier: int
    is_pipe: bool
    pipes: dict[int, Pipe] = field(default_factory=dict)


@dataclass(eq=False)
class Session:
    identifier: int
    connection: Connection
    authentication: Authentication | None = None
    is_ready: bool = False
    owner: str = ""
    signer: Signer | None = None
    encryption: SessionEncryption | None = None
    # whether what isn't signed is refused, and what isn't encrypted
    signs: bool = False
    needs_encryption: bool = False
    # at 3.1.1, while it authenticates
    integrity: PreauthIntegrity | None = None
    trees: dict[int, Tree] = field(default_factory=dict)

    def check_signature(self, message: RequestMessage, sets_up: bool = False) -> None:
        """A session that signs is refused what isn't signed, and one with a key what is signed wrongly (3.3.5.2.4). What came
        encrypted needs no signature (3.3.5.2.1.1)."""
        if message.encryption and message.encryption is self.encryption:
            return
        is_wrong = message.is_signed and self.signer and not self.has_signed(message)
        if is_wrong or self.signs and not message.is_signed or self.needs_encryption and not sets_up:
            raise StatusError(Status.ACCESS_DENIED)

    def has_signed(self, message: RequestMessage) -> bool:
        return bool(message.is_signed and self.signer
                    and hmac.compare_digest(self.signer.signature(message.data), message.data[START:END]))

    @property
    def seals(self) -> SessionEncryption | None:
        """What a message is sealed by that answers no request."""
        return self.encryption if self.encryption and (self.needs_encryption or self.encryption.is_used) else None


class Sessions(Handlers):
    def set_up(self, request: Request) -> Answer:
        """One exchange of messages of NTLM; with the last one the client joins. Where they fail the session is over, one that was
        there before too (3.3.5.5.3)."""
        message, connection = request.message, request.connection
        token = message.buffer(HEADER + 12, message.number(HEADER + 14, 2))
        terms, settings = connection.terms, self._server.settings
        if message.number(HEADER + 2, 1) & BINDING or terms is None:
            raise StatusError(Status.REQUEST_NOT_ACCEPTED)
        if settings.encrypts and terms.cipher is None:
            raise StatusError(Status.ACCESS_DENIED)
        session = connection.sessions.get(message.session) if message.session else self._new(connection)
        if session is None:
            raise StatusError(Status.USER_SESSION_DELETED)
        session.check_signature(message, sets_up=True)
        current = self._authentication(session, terms, message)
        try:
            reply = current.reply(token)
        except (StatusError, Unreadable):
            self._server.end_session(session)
            raise
        if current.is_over:
            self._establish(session, terms, current, message)
        if not connection.waiting.count():
            self._give_up(session)
            raise StatusError(Status.INSUFFICIENT_RESOURCES)
        status = Status.SUCCESS if current.is_over else Status.MORE_PROCESSING_REQUIRED
        flags = (IS_GUEST if not current.key else ENCRYPT_DATA * session.needs_encryption) if current.is_over else 0
        body = struct.pack("<HHHH", 9, flags, HEADER + 8, len(reply)) + reply
        return Answer(status, body, session=session.identifier, signer=session.signer if current.is_over else None,
                      integrity=None if current.is_over else session.integrity)

    def _authentication(self, session: Session, terms: Terms, message: RequestMessage) -> Authentication:
        """The one that this message belongs to."""
        settings = self._server.settings
        if session.authentication is None:
            session.authentication = Authentication(settings.user, settings.has_guests, self._server.brake,
                                                    session.connection.address, settings.chance)
            session.integrity = terms.integrity and terms.integrity.fork()
        if session.integrity:
            session.integrity.add(message.data)
        return session.authentication

    def _give_up(self, session: Session) -> None:
        session.authentication = None
        if not session.is_ready:
            self._server.end_session(session)
        session.connection.waiting.count()

    def _new(self, connection: Connection) -> Session:
        if len(connection.sessions) == MOST_SESSIONS:
            raise StatusError(Status.INSUFFICIENT_RESOURCES)
        session = Session(self._server.next_session_id(), connection)
        connection.sessions[session.identifier] = session
        self._server.sessions[session.identifier] = session
        return session

    def _establish(self, session: Session, terms: Terms, proved: Authentication, message: RequestMessage) -> None:
        """An earlier session of the same user that is named is over (3.3.5.5.3); no guest is the same user as another one. A
        session that is authenticated again keeps its key (3.3.5.5.2). A client is connected once."""
        session.authentication = None
        old = self._server.sessions.get(message.number(HEADER + 16, 8))
        if old and old is not session and proved.key and old.owner == proved.owner:
            self._server.end_session(old)
        if not session.is_ready:
            self._server.connect_client(session.connection)
        session.is_ready, session.owner = True, proved.owner
        settings = self._server.settings
        if session.signer is None and proved.key:
            keys = session_keys(terms, session.identifier, proved.key, session.integrity.value if session.integrity else b"")
            session.signer, session.encryption = keys.signer, keys.encryption
            session.needs_encryption = settings.encrypts
        wants_to_sign = message.number(HEADER + 3, 1) & SIGNING_REQUIRED or not settings.has_guests
        session.signs = session.signs or session.needs_encryption or bool(proved.key and wants_to_sign)

    def log_off(self, request: Request) -> Answer:
        signer = request.session.signer
        self._server.end_session(request.session)
        return Answer(Status.SUCCESS, struct.pack("<HH", 4, 0), signer=signer)

    def connect_tree(self, request: Request) -> Answer:
        self._check_guarded(request)
        share = tree_path(request.message).rpartition("\\")[2].lower()
        if share not in (self._server.settings.share.lower(), "ipc$"):
            raise StatusError(Status.BAD_NETWORK_NAME)
        if len(request.session.trees) == MOST_TREES:
            raise StatusError(Status.INSUFFICIENT_RESOURCES)
        tree = Tree(next(self._server.tree_ids), share == "ipc$")
        request.session.trees[tree.identifier] = tree
        body = struct.pack("<HBBLLL", 16, PIPE if tree.is_pipe else DISK, 0, 0, 0, FULL_ACCESS)
        return Answer(Status.SUCCESS, body, tree=tree.identifier)

    @staticmethod
    def _check_guarded(request: Request) -> None:
        """By the first message that is signed or encrypted a client of 3.1.1 shows that nobody changed what was agreed on; a
        user's that is neither ends the connection (3.3.5.7)."""
        message, connection = request.message, request.connection
        is_of_3_1_1 = connection.dialect is Dialect.SMB_3_1_1
        if is_of_3_1_1 and request.session.signer and not message.is_signed and not message.encryption:
            connection.end()
            raise StatusError(Status.ACCESS_DENIED)

    def disconnect_tree(self, request: Request) -> Handling:
        tree = request.tree
        del request.session.trees[tree.identifier]
        yield from self._server.close_all(lambda it: it.tree is tree)
        return Answer(Status.SUCCESS, struct.pack("<HH", 4, 0))

    def echo(self, _: Request) -> Answer:
        return Answer(Status.SUCCESS, struct.pack("<HH", 4, 0))
