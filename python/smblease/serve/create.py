"""CREATE (3.3.5.9): names and what else the shell decides, and the manager's create."""
from __future__ import annotations

from typing import TYPE_CHECKING

from smblease import CreateAsk, LeaseState, Share, Status, opens_conflict
from smblease.serve.access import READING, SHARE_READ, WRITING, is_of_attributes, is_stat, writes
from smblease.serve.app_instances import AppInstances
from smblease.serve.asks import Granted, Handling, StartOver, Steps, Waits, to_open
from smblease.serve.create_answers import oplock_contexts, reply
from smblease.serve.create_by_dialect import Arrivals, heeded_at_2_0_2
from smblease.serve.create_parameters import (ALLOCATION, CREATE, CREATED, DELETE_ON_CLOSE, DIRECTORY_FILE, MAKING,
                                              NON_DIRECTORY_FILE, OPENED, OVERWRITE, OVERWRITE_IF, OVERWRITTEN, SUPERSEDE,
                                              SUPERSEDED, WRITE_THROUGH, CreateParameters, check, conflicts, level_of,
                                              oplock_state, read_parameters)
from smblease.serve.dialects import Dialect
from smblease.serve.kept_attributes import HIDDEN, READ_ONLY, SYSTEM, keep
from smblease.serve.node import Node
from smblease.serve.opens import BATCH, LEASE, NO_LEVEL, ManagerClient, Open
from smblease.serve.reconnecting import Reconnecting
from smblease.serve.request import Handlers, Request
from smblease.serve.resizing import resizing
from smblease.serve.status_error import StatusError

if TYPE_CHECKING:
    from smblease.serve.server import Server

MOST_OPENS = 16384
ACTIONS = {SUPERSEDE: SUPERSEDED, OVERWRITE: OVERWRITTEN, OVERWRITE_IF: OVERWRITTEN}


class Create(Handlers):
    def __init__(self, server: Server) -> None:
        super().__init__(server)
        self._arrivals, self._reconnecting, self._app_instances = Arrivals(server), Reconnecting(server), AppInstances(server)

    def create(self, request: Request) -> Handling:
        wanted, dialect = read_parameters(request.message), request.connection.dialect
        if dialect is Dialect.SMB_2_0_2:
            wanted = heeded_at_2_0_2(wanted)
        if dialect in (Dialect.SMB_2_0_2, Dialect.SMB_2_1) or not wanted.text:
            return self._create(request, wanted)
        return self._arrived(request, wanted)

    def _arrived(self, request: Request, wanted: CreateParameters) -> Handling:
        with self._arrivals.arrive(request, wanted) as arrival:
            if arrival.again is not None:
                return (yield from self._reconnecting.answer_again(request, arrival.wanted, arrival.again))
            return (yield from self._create(request, arrival.wanted))

    def _create(self, request: Request, wanted: CreateParameters) -> Handling:
        if wanted.ask.reconnect is not None:
            return (yield from self._reconnecting.reconnect(request, wanted))
        check(wanted, self._server.settings.limit)
        if len(self._server.opens) >= MOST_OPENS:
            raise StatusError(Status.INSUFFICIENT_RESOURCES)
        while True:
            try:
                return (yield from self._once(request, wanted))
            except StartOver:
                # (which may come after its connection)
                if request.connection.client is None:
                    raise StatusError(Status.USER_SESSION_DELETED) from None
                request.require_tree()

    def _once(self, request: Request, wanted: CreateParameters) -> Handling:
        names = self._server.names
        node = names.find(wanted.path)
        action = self._action(wanted, node)
        if node is None:
            yield from self._server.folder_leases.making(request, wanted)
            node = names.find(wanted.path)
            action = self._action(wanted, node)
        is_folder = node.is_folder if node else bool(wanted.options & DIRECTORY_FILE)
        if is_folder or wanted.options & DIRECTORY_FILE:
            self._check_folder(request, wanted, node)
        elif wanted.path == "":
            raise StatusError(Status.FILE_IS_A_DIRECTORY)
        node = names.hold(node) if node else names.make(wanted.path, is_folder, bool(wanted.attributes & READ_ONLY))
        try:
            if action == CREATED or wanted.empties:
                self._check_attributes(wanted, node, action)
            if self._server.record.is_kept and not is_folder:
                self._server.record.start(node)
            opened, contexts = yield from (self._folder(request, wanted, node) if is_folder
                                           else self._file(request, wanted, node, action))
            opened.action = action
            if action != OPENED:
                self._made(wanted, opened)
            return reply(wanted, opened, contexts)
        except (StatusError, OSError):
            if action == CREATED and not node.opens and not node.is_gone:
                names.remove(node)
            raise
        finally:
            if node.users > 1:
                node.users -= 1
            else:
                names.release(node)

    @staticmethod
    def _check_attributes(wanted: CreateParameters, node: Node, action: int) -> None:
        """What is made has those that are asked for. Who overwrites has to know of "hidden" and "system" (MS-FSA 2.1.5.1.2.1)."""
        if action == CREATED and not node.is_stream:
            keep(node.file, wanted.kept_attributes(node.is_folder))
        elif wanted.empties and node.kept.of(node.is_folder) & ~wanted.attributes & (HIDDEN | SYSTEM):
            raise StatusError(Status.ACCESS_DENIED)

    def _made(self, wanted: CreateParameters, opened: Open) -> None:
        """What a file has that was made or emptied."""
        node = opened.node
        if opened.action != CREATED:
            node.allocated = 0
            self._server.names.set_read_only(node, bool(wanted.attributes & READ_ONLY))
        if ALLOCATION in wanted.others and not node.is_folder:
            node.allocated = wanted.allocation

    def _action(self, wanted: CreateParameters, node: Node | None) -> int:
        if node is None:
            if wanted.disposition not in MAKING:
                known = self._server.names.has_folder_of(wanted.path)
                raise StatusError(Status.OBJECT_NAME_NOT_FOUND if known else Status.OBJECT_PATH_NOT_FOUND)
            if wanted.options & DELETE_ON_CLOSE and wanted.attributes & READ_ONLY:
                raise StatusError(Status.CANNOT_DELETE)
            return CREATED
        if node.is_deleting:
            raise StatusError(Status.DELETE_PENDING)
        if wanted.disposition == CREATE:
            raise StatusError(Status.OBJECT_NAME_COLLISION)
        if node.is_read_only:
            self._check_read_only(wanted)
        if wanted.options & DELETE_ON_CLOSE and not self._server.names.may_remove(node):
            raise StatusError(Status.ACCESS_DENIED)
        return ACTIONS.get(wanted.disposition, OPENED)

    @staticmethod
    def _check_read_only(wanted: CreateParameters) -> None:
        if writes(wanted.access) or wanted.empties:
            raise StatusError(Status.ACCESS_DENIED)
        if wanted.options & DELETE_ON_CLOSE:
            raise StatusError(Status.CANNOT_DELETE)

    @staticmethod
    def _check_folder(request: Request, wanted: CreateParameters, node: Node | None) -> None:
        """The key of a lease of a file isn't one of a folder's."""
        if node and not node.is_folder:
            raise StatusError(Status.NOT_A_DIRECTORY)
        if node and wanted.options & NON_DIRECTORY_FILE:
            raise StatusError(Status.FILE_IS_A_DIRECTORY)
        lease = request.client.leases.get(wanted.key) if wanted.key else None
        if wanted.empties or lease and lease.node is not node:
            raise StatusError(Status.INVALID_PARAMETER)

    def _folder(self, request: Request, wanted: CreateParameters, node: Node) -> Waits[tuple[Open, bytes]]:
        """Folders are the shell's alone, but for leases of version 2."""
        if conflicts(wanted, node.opens):
            yield from self._resolve_conflicts(request, wanted, node)
        if not wanted.has_second_lease:
            return self._kept(request, wanted, node), b""
        path, client = node.path, request.client
        granted = yield from self._server.folder_leases.opening(request, wanted, node)
        yield from self._check_granted(request, wanted, node, client, granted, path)
        opened = self._granted(request, wanted, node, client, granted, False)
        if node.is_gone or node.is_deleting or opened.deletes:
            yield from self._after_grant(request, wanted, opened, OPENED)
        return opened, granted.contexts

    def _file(self, request: Request, wanted: CreateParameters, node: Node, action: int) -> Waits[tuple[Open, bytes]]:
        """An open of a file, and the contexts of its reply."""
        server, access, path = self._server, wanted.access, node.path
        if wanted.is_of_3 and wanted.app_instance:
            yield from self._app_instances.make_way(request, wanted, node)
            self._check_there(node, path)
        # (each open holds the file, as this create does)
        if node.users > 1 and conflicts(wanted, node.opens):
            yield from self._resolve_conflicts(request, wanted, node)
        changes, has_data = access & WRITING or wanted.empties, access & READING
        if changes and not node.is_writable:
            server.names.make_writable(node)
        if not changes and not has_data and (wanted.level == NO_LEVEL or is_of_attributes(access)
                                             and not server.looking.may_cache(node, request.client, wanted.key)):
            return (yield from self._file_without_data(request, wanted, node)), b""
        if wanted.empties and node.opens.leases and self._is_shared(wanted, node):
            yield from self._empty(request, wanted, node)
        client, ask = self._manager_client(request, wanted, node)
        hides = not wanted.share & SHARE_READ and server.looking.hides(node, wanted.share)
        try:
            granted = yield to_open(client, node, *wanted.rights_beside(hides), wanted.asking(ask), starts_over=True)
            yield from self._check_granted(request, wanted, node, client, granted, path, hides)
        except (StatusError, StartOver):
            if client.guid is None:
                server.free(client)
            raise
        opened = self._granted(request, wanted, node, client, granted, hides)
        if node.is_gone or node.is_deleting or wanted.empties or opened.deletes:
            yield from self._after_grant(request, wanted, opened, action)
        return opened, oplock_contexts(opened, granted.contexts) if client.open else granted.contexts

    def _check_granted(self, request: Request, wanted: CreateParameters, node: Node, client: ManagerClient, granted: Granted,
                       path: str, hides: bool = False) -> Steps:
        """What comes too late, since its tree or session is gone, another open is there, or another name, is closed again."""
        fault: StatusError | StartOver | None = None
        if not request.has_tree():
            fault = self._late(request)
        # (what the shell guards may have been opened while it waited)
        elif node.users > 1 and (conflicts(wanted, node.opens) or hides and node.opens.reading):
            fault = StatusError(Status.SHARING_VIOLATION)
        elif node.path != path:
            fault = StartOver()
        if fault:
            yield from self._server.close_in_manager(client, node, granted.file_id)
            raise fault

    @staticmethod
    def _late(request: Request) -> StatusError | None:
        try:
            request.require_tree()
        except StatusError as fault:
            return fault
        return None

    @staticmethod
    def _is_shared(wanted: CreateParameters, node: Node) -> bool:
        """Whether the manager refuses it for no open that is there."""
        access, share = wanted.rights
        return not any(opens_conflict(access, share, *it.rights) for it in node.opens if it.rights)

    def _empty(self, request: Request, wanted: CreateParameters, node: Node) -> Steps:
        """Has all others give up all at once, and not writes first."""
        path = node.path
        yield from self._server.forced_breaks.break_for_emptying(request, node, wanted.key)
        self._check_there(node, path)

    @staticmethod
    def _check_there(node: Node, path: str) -> None:
        """Who caches a file may remove or rename it while its create waits; another may have its name then."""
        if node.is_gone or node.path != path:
            raise StartOver

    def _file_without_data(self, request: Request, wanted: CreateParameters, node: Node) -> Waits[Open]:
        path = node.path
        if not is_stat(wanted.access) or not is_of_attributes(wanted.access) and node.opens.oplocks:
            yield from self._break_writes_of_others(request, node)
        self._check_there(node, path)
        opened = self._kept(request, wanted, node)
        yield from self._break_for_deletion(request, opened)
        return opened

    def _after_grant(self, request: Request, wanted: CreateParameters, opened: Open, action: int) -> Steps:
        """What comes of an open before it is answered. Where that fails it is closed."""
        node = opened.node
        try:
            if node.is_gone or node.is_deleting:
                raise StatusError(Status.DELETE_PENDING)
            if wanted.empties and action != CREATED:
                keep(node.file, wanted.kept_attributes(node.is_folder))
                yield from resizing(self._server.record, opened, 0)
            yield from self._break_for_deletion(request, opened)
        except (StatusError, OSError):
            yield from self._server.close_open(opened)
            raise

    def _break_for_deletion(self, request: Request, opened: Open) -> Steps:
        """Who deletes at its close has all others give up handles first."""
        if opened.deletes and len(opened.node.opens) > 1:
            yield from self._server.forced_breaks.break_handles(request, opened.node, opened.client, opened.key)

    def _resolve_conflicts(self, request: Request, wanted: CreateParameters, node: Node) -> Steps:
        """Deletion is shared or not: where it isn't, those that only may open again are asked to close."""
        path = node.path
        yield from self._server.forced_breaks.break_handles(request, node, request.client, wanted.key)
        self._check_there(node, path)
        if conflicts(wanted, node.opens):
            raise StatusError(Status.SHARING_VIOLATION)

    def _break_writes_of_others(self, request: Request, node: Node) -> Steps:
        """An open without data breaks as one that reads: that is made, and closed at once."""
        if not node.opens.without_reading and any(it.client for it in node.opens):
            yield from self._server.forced_breaks.open_and_close(request, node, Share.READ_WRITE)

    def _manager_client(self, request: Request, wanted: CreateParameters, node: Node) -> tuple[ManagerClient, CreateAsk]:
        """Who asks the manager, and for what: an oplock is a lease under a key of its own."""
        if wanted.level in (LEASE, NO_LEVEL) or node.opens.with_handles:
            return request.client, wanted.lease_ask(bool(node.opens.oplocks))
        others = any(it.client and (it.is_connected or not self._may_write(it)) for it in node.opens)
        state = LeaseState.R if others else oplock_state(wanted.level)
        client = self._server.borrow(request.connection, f"an oplock of client {request.client.number}")
        return client, CreateAsk(client.own_key, state, wanted.ask.durable and wanted.level == BATCH and not others)

    @staticmethod
    def _may_write(opened: Open) -> bool:
        return bool(opened.lease and LeaseState.W in opened.lease.state)

    def _granted(self, request: Request, wanted: CreateParameters, node: Node, client: ManagerClient, granted: Granted,
                 hides: bool) -> Open:
        """The open that the manager made."""
        opened = self._new(request, wanted, node, granted.file_id)
        opened.client, opened.is_durable, opened.rights = client, granted.answer.durable, wanted.rights_beside(hides)
        opened.is_lent = wanted.empties or not wanted.access & (READING | WRITING)
        opened.hides_reading = hides
        client.opens += 1
        if client.guid is None:
            client.open = opened
        key = granted.answer.key
        if key:
            opened.key = key
            opened.level = LEASE if client.guid else level_of(wanted.level, granted.answer.state)
        if opened.is_durable and wanted.create_guid:
            self._note_create_guid(request, wanted, opened, wanted.create_guid)
        self._keep(opened)
        if key:
            self._server.leases.granted(client, opened, granted.answer, granted.contexts)
        return opened

    def _note_create_guid(self, request: Request, wanted: CreateParameters, opened: Open, create_guid: bytes) -> None:
        opened.create_guid, opened.timeout = create_guid, wanted.timeout
        opened.app_instance, opened.client_guid = wanted.app_instance, request.client.guid
        if opened.client and opened.client.guid is None and request.client.guid:
            self._server.clients.note_create_guid(request.client.guid, create_guid, opened.client)

    def _kept(self, request: Request, wanted: CreateParameters, node: Node) -> Open:
        """An open of the shell's own."""
        return self._keep(self._new(request, wanted, node, next(self._server.own_file_ids)))

    @staticmethod
    def _new(request: Request, wanted: CreateParameters, node: Node, file_id: int) -> Open:
        session = request.session_now()
        opened = Open(file_id, node, wanted.access, wanted.share, session, request.tree_of(session))
        opened.deletes = bool(wanted.options & DELETE_ON_CLOSE)
        opened.writes_through = bool(wanted.options & WRITE_THROUGH)
        opened.has_written = wanted.empties
        if wanted.is_of_3:
            opened.parent_key = wanted.parent_key
        return opened

    def _keep(self, opened: Open) -> Open:
        # (the create holds it too)
        opened.node.users += 1
        opened.node.opens.add(opened)
        self._server.opens[opened.file_id] = opened
        return opened
