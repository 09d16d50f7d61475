"""A request with what its header leads to."""
from __future__ import annotations

import struct
from typing import TYPE_CHECKING

from smblease import Status
from smblease.drive.headers import FILE_IDS, HEADER, Command, Unreadable
from smblease.serve.faults_on_demand import Action
from smblease.serve.opens import ManagerClient, Open
from smblease.serve.packets import RequestMessage
from smblease.serve.status_error import StatusError

if TYPE_CHECKING:
    from smblease.serve.connection import Connection
    from smblease.serve.server import Server
    from smblease.serve.sessions import Session, Tree

WITHOUT_SESSION = {Command.NEGOTIATE, Command.SESSION_SETUP, Command.ECHO}
WITHOUT_TREE = WITHOUT_SESSION | {Command.LOGOFF, Command.TREE_CONNECT}
# Where a request has its FileId, and both halves of that; the one that means the open before it in its compound.
PLACES: dict[Command | None, int] = {Command.OPLOCK_BREAK: HEADER + 8}
PLACES.update(FILE_IDS.items())
FILE_ID = struct.Struct("<QQ")
PREVIOUS = (1 << 64) - 1


class Request:
    def __init__(self, message: RequestMessage, connection: Connection, session_id: int, tree_id: int,
                 previous: int | None = None) -> None:
        """Session, tree and the open before it are those that it has in its compound."""
        self.message, self.connection, self.server = message, connection, connection.server
        self.session_id, self.tree_id, self.previous = session_id, tree_id, previous
        # what somebody wanted to go wrong with it, or with its answer
        self.fault: Action | None = None
        self._file_id: int | None = None
        # its session and its tree where its handling begins
        self.entered: Session | None = None
        self.entered_tree: Tree | None = None

    @property
    def session(self) -> Session:
        return self.session_now()

    def session_now(self) -> Session:
        found = self.connection.sessions.get(self.session_id)
        if found is None or not found.is_ready:
            raise StatusError(Status.USER_SESSION_DELETED)
        return found

    def enter_session(self) -> Session:
        """Its session, where its handling begins."""
        self.entered = found = self.session_now()
        return found

    def enter_tree(self) -> Tree:
        """Its tree, once its session is known."""
        assert self.entered
        self.entered_tree = found = self.tree_of(self.entered)
        return found

    @property
    def tree(self) -> Tree:
        return self.tree_of(self.session)

    def tree_of(self, session: Session) -> Tree:
        found = session.trees.get(self.tree_id)
        if found is None:
            raise StatusError(Status.NETWORK_NAME_DELETED)
        return found

    def has_tree(self) -> bool:
        """Whether its session and its tree are there still."""
        session = self.connection.sessions.get(self.session_id)
        return session is not None and session.is_ready and self.tree_id in session.trees

    def require_tree(self) -> None:
        """Refuses a request without a tree."""
        assert self.tree

    @property
    def client(self) -> ManagerClient:
        found = self.connection.client
        if found is None:
            raise StatusError(Status.USER_SESSION_DELETED)
        return found

    def file_id(self) -> int:
        """The persistent half of the request's FileId; the volatile one is the same in all that the server gives."""
        if self._file_id is None:
            self._file_id = self._read_file_id()
        return self._file_id

    def _read_file_id(self) -> int:
        place = PLACES.get(self.message.command)
        if place is None:
            return 0
        try:
            persistent, volatile = FILE_ID.unpack_from(self.message.data, place)
        except struct.error:
            raise Unreadable from None
        if persistent != volatile:
            raise StatusError(Status.FILE_CLOSED)
        if persistent != PREVIOUS or not self.message.is_related:
            return int(persistent)
        if self.previous is None:
            raise StatusError(Status.FILE_CLOSED)
        return self.previous

    @property
    def named(self) -> int | None:
        """The FileId that those which are related to it mean, if it names one."""
        if self.message.command not in FILE_IDS:
            return None
        try:
            return self.file_id()
        except (StatusError, Unreadable):
            return None

    def find(self) -> Open | None:
        """The request's open, which is its own connection's, where its handling begins. A FileId that the shell doesn't know is
        left to the manager."""
        connection = self.connection
        found = self.server.opens.get(self.file_id())
        if found is None or found.connection is not connection and found.client is not connection.client:
            return None
        if found.connection is not connection or found.session is not self.entered or found.tree is not self.entered_tree:
            self.require_tree()
            raise StatusError(Status.FILE_CLOSED)
        return found

    def open(self) -> Open:
        found = self.find()
        if found is None:
            raise StatusError(Status.FILE_CLOSED)
        return found


class Handlers:
    """What handles some commands, or is asked for by what does."""

    def __init__(self, server: Server) -> None:
        self._server = server
