"""The server: what is there, who is connected, and what happens to opens."""
from __future__ import annotations

import asyncio
import itertools
import logging
import uuid
from collections.abc import Callable, Sequence
from typing import TYPE_CHECKING

from smblease import LeaseState, Status
from smblease.manager_decisions import Breaks
from smblease.serve.asks import Changing, Emptying, Steps, closing
from smblease.serve.chains import Pending
from smblease.serve.commands import Commands
from smblease.serve.connection import Connection
from smblease.serve.faults_on_demand import Faults
from smblease.serve.folder_leases import FolderLeases
from smblease.serve.forced_breaks import ForcedBreaks
from smblease.serve.kept_opens import KeptOpens
from smblease.serve.leases import Leases
from smblease.serve.looking import Looking
from smblease.serve.manager_clients import ManagerClients
from smblease.serve.manager_host import ManagerHost, Task
from smblease.serve.namespace import Namespace
from smblease.serve.opens import OWN_FILE_IDS, LeaseSeen, ManagerClient, Open
from smblease.serve.password_brake import PasswordBrake
from smblease.serve.record import Record
from smblease.serve.sessions import Session
from smblease.serve.settings import Settings
from smblease.serve.status_error import EXHAUSTED, StatusError

if TYPE_CHECKING:
    from smblease.serve.node import Node
    from smblease.serve.request_log import RequestLog
    from smblease.serve.script import Script

LOG = logging.getLogger("serve")
# What a SessionId never is: none (2.2.1.2), and that of the request before it in a compound (3.3.5.2.7.2).
NO_SESSION_IDS = (0, (1 << 64) - 1)


class Server:  # pylint: disable=too-many-instance-attributes  # its parts find one another by it
    """The shell around the proved manager."""

    def __init__(self, settings: Settings, loop: asyncio.AbstractEventLoop, record: Record, names: Namespace) -> None:
        self.settings, self.loop, self.record, self.names = settings, loop, record, names
        self.guid = settings.chance.take(16)
        self.host = ManagerHost(settings.rules, self, settings.dialects.has_3)
        self.clients = ManagerClients(settings.chance)
        self.opens: dict[int, Open] = {}
        self.kept = KeptOpens(self)
        self.sessions: dict[int, Session] = {}
        self.begun: list[Pending] = []
        self.connections: set[Connection] = set()
        # bytes that are kept for connections without a session, and for sessions that are half made
        self.without_session = 0
        self.brake = PasswordBrake()
        self.faults = Faults()
        self.script: Script | None = None
        self.log: RequestLog | None = None
        self.tree_ids, self.async_ids, self.own_file_ids = (itertools.count(it + 1) for it in (0, 0, OWN_FILE_IDS))
        self.leases = Leases(self)
        self.looking = Looking(self)
        self.forced_breaks, self.folder_leases = ForcedBreaks(self), FolderLeases(self)
        self.commands = Commands(self)

    # What the manager decides

    def sent(self, number: int) -> None:
        """The manager's client is sent a message."""
        client = self.clients.by_number.get(number)
        if client:
            client.sent += 1
            if self.record.is_kept:
                self.record.sent(client)

    def broken(self, decision: Breaks, message: bytes | None) -> None:
        client, notification = self.clients.numbered(decision.client), decision.notification
        if client and client.is_connected:
            self.sent(decision.client)
            self.leases.broken(client, notification, notification.write() if message is None else message)

    def ended(self, file_id: int) -> None:
        opened = self.opens.get(file_id)
        if opened:
            self.forget_open(opened)

    def lost(self) -> None:
        """There is a new manager, which knows of nothing."""
        LOG.warning("there was no memory for the manager: all connections are cut, and all opens are gone")
        for connection in list(self.connections):
            connection.close()
        for opened in list(self.opens.values()):
            self.forget_open(opened)

    @staticmethod
    def failed(fault: Exception) -> Status:
        LOG.warning("a request broke down: %s: %s", type(fault).__name__, str(fault)[:200])
        LOG.debug("where:", exc_info=fault)
        return Status.INSUFFICIENT_RESOURCES if isinstance(fault, EXHAUSTED) else Status.UNSUCCESSFUL

    # Tasks

    def settle(self) -> None:
        self.host.drain()
        self.send_interim_responses()

    def send_interim_responses(self) -> None:
        """The clients of requests that were begun and wait get STATUS_PENDING, once all is quiet."""
        if self.host.is_draining:
            return
        begun, self.begun = self.begun, []
        for pending in begun:
            if not pending.is_over:
                pending.request.connection.send_interim_response(pending)
        if self.script:
            self.script.go_on()

    def start(self, handling: Steps) -> None:
        """Something that nobody waits for."""
        self.host.start(Task(handling, lambda answer: None))

    # Who is connected

    def connect(self, connection: Connection) -> None:
        """Where there are too many, the one that was silent for the longest goes of those that don't work: one without a session
        before others."""
        self.connections.add(connection)
        if len(self.connections) > self.names.most_connections:
            at_work = {it.connection for it in self.opens.values()}
            idle = [it for it in self.connections if it not in at_work and not it.tasks and it is not connection]
            min(idle, key=lambda it: (it.client is not None, it.heard), default=connection).close()

    def connect_client(self, connection: Connection) -> None:
        """All connections of a ClientGuid are one client."""
        if connection.client or connection.guid is None:
            return
        connection.waiting.end()
        client = self.clients.of_guid(connection.guid) or self.clients.take(connection.guid)
        connection.client = client
        if client.is_connected:
            client.connections.append(connection)
            self.record.strayed(client, "has several connections")
        else:
            self.join(client, connection, str(uuid.UUID(bytes=connection.guid)))

    def next_session_id(self) -> int:
        """One that nobody can guess, unless he knows a seed."""
        while True:
            found = self.settings.chance.number()
            if found not in self.sessions and found not in NO_SESSION_IDS:
                return found

    def end_session(self, session: Session) -> None:
        """With the last one of a client's last connection the client is gone. What lasts of an open stays in both cases."""
        connection = session.connection
        connection.sessions.pop(session.identifier, None)
        self.sessions.pop(session.identifier, None)
        if session.signer:
            connection.former_keys.keep(session.identifier, session.signer)
        if connection.client and not any(it.is_ready for it in connection.sessions.values()):
            self._disconnect_client(connection, connection.client)
        elif connection.is_open and connection.client:
            opens = [it for it in self.opens.values() if it.session is session]
            oplocks = [it.client for it in opens if it.client and it.client.open]
            for one in oplocks:
                one.connections.clear()
                self._cut(one)
            self._part(connection.client, opens, [])
            self.host.abandon({it.number for it in oplocks}, Status.USER_SESSION_DELETED)
            self.host.drain()
        connection.waiting.count()

    def _disconnect_client(self, connection: Connection, client: ManagerClient) -> None:
        opens = [it for it in self.opens.values() if it.connection is connection]
        connected = [client, *(it for it in self.clients.of(connection) if it is not client)]
        connection.client = None
        if connection.is_open:
            connection.waiting.begin()
        for one in connected:
            one.connections.remove(connection)
        cut = [it for it in connected if not it.is_connected]
        for one in cut:
            self._cut(one)
        self._part(client, opens, connection.tasks)
        self.host.abandon({it.number for it in cut}, Status.USER_SESSION_DELETED)
        # (what is done in the name of a client that was there for one open, which is closed, waits still)
        self.host.let_go([it for it in connection.tasks if isinstance(it.asked, (Changing, Emptying))])
        self._drop(client)
        self.settle()

    def _cut(self, client: ManagerClient) -> None:
        self.record.dropped(client)
        self.host.cut(client.number)

    def _part(self, client: ManagerClient, opens: list[Open], tasks: Sequence[Task]) -> None:
        """A session or a connection of a client goes, with these opens and what waits of these tasks. The client may stay."""
        leases = dict.fromkeys(it.lease for it in opens if it.lease)
        if client.is_connected:
            self.host.leave(client, [it.file_id for it in opens if it.client is client], tasks)
        for opened in opens:
            self._leave(opened)
        for lease in leases:
            if lease.opens and client.is_connected and not any(it.is_connected for it in lease.opens):
                self.record.believes(client, lease, LeaseState.NONE)
        self.kept.limit([it for it in opens if it.file_id in self.kept])

    def _leave(self, opened: Open) -> None:
        """An open whose session is over: it is kept or forgotten."""
        opened.connection = opened.session = opened.tree = None
        opened.is_breaking = False
        self.host.resume(opened.node.pauses)
        if opened.client and self.host.manager.left_behind(opened.file_id):
            self.kept.keep(opened)
        else:
            self.forget_open(opened)

    def _drop(self, client: ManagerClient) -> None:
        """A client of a ClientGuid that left nothing is as one that never came."""
        if client.is_connected or client.opens or self.clients.numbered(client.number) is not client or client.guid is None:
            return
        self._forget(client)

    def _forget(self, client: ManagerClient) -> None:
        """The manager remembers what expired of a client until it joins."""
        if client.has_expired:
            self.host.call(lambda manager: manager.join(client.number))
            self.host.cut(client.number)
        self.clients.free(client)

    # What becomes of opens

    def scavenge(self, file_id: int) -> bool:
        opened = self.opens.get(file_id)
        if opened is None or not self.host.manager.left_behind(file_id):
            return False
        self.host.call(lambda manager: manager.scavenge(file_id))
        self.settle()
        return True

    def close_open(self, opened: Open) -> Steps:
        """Closes an open, in the manager too."""
        if opened.client and not opened.client.is_connected:
            self.scavenge(opened.file_id)
        elif opened.client:
            self.leases.believes_nothing(opened)
            yield from self.close_in_manager(opened.client, opened.node, opened.file_id)
        self.forget_open(opened)

    def close_in_manager(self, client: ManagerClient, node: Node, file_id: int) -> Steps:
        """Where it has ended by itself, or its client is cut while that waits, it isn't kept either."""
        try:
            yield from closing(client, node, file_id)
        except StatusError:
            self.host.call(lambda manager: manager.scavenge(file_id))

    def close_all(self, concerned: Callable[[Open], bool]) -> Steps:
        for opened in [it for it in self.opens.values() if it.is_connected and concerned(it)]:
            if opened.file_id in self.opens:
                yield from self.close_open(opened)

    def forget_open(self, opened: Open, is_told: bool = False) -> None:
        """An open is gone. With the last one of a file goes its name, where it is to be deleted; a folder stays with what is in
        it. `is_told`: who caches the folder is sent a break by now."""
        if self.opens.pop(opened.file_id, None) is None:
            return
        node = opened.node
        if opened.timer:
            self.kept.let_go(opened)
        node.opens.remove(opened)
        if node.pauses:
            self.host.resume(node.pauses)
        node.is_deleting = (node.is_deleting or opened.deletes) and not (node.is_folder and self.names.has_below(node))
        goes = node.is_deleting and not node.opens and not node.is_gone
        if (goes or opened.has_written) and not is_told:
            self.folder_leases.ending(opened)
        self._lease_gone(opened)
        if goes:
            self._remove(node)
        self.names.release(node)

    def _remove(self, node: Node) -> None:
        try:
            self.names.remove(node)
        except OSError as fault:
            LOG.warning("%s: it was to be deleted: %s", node.path, fault.strerror)

    def _lease_gone(self, opened: Open) -> None:
        client = opened.client
        if client is None:
            return
        lease = client.leases.get(opened.key) if opened.key else None
        if lease:
            lease.opens.pop(opened, None)
        if lease and not lease.opens:
            # (they differ where a file has two names)
            for node in (lease.node, opened.node):
                node.opens.lease_changed(lease)
            self.record.believes(client, lease, LeaseState.NONE)
            self.stop_timer(lease)
            del client.leases[lease.key]
        client.opens -= 1
        if client.open is opened:
            self.free(client)
        if not client.connections:
            self._drop(client)

    def free(self, client: ManagerClient) -> None:
        """A client that was there for one open isn't needed any more."""
        client.open = None
        if client.is_connected:
            self._cut(client)
            self.host.ask_again(client)
        self._forget(client)

    def borrow(self, connection: Connection, who: str, is_shells: bool = False) -> ManagerClient:
        """A client of the manager for one open of a connection."""
        client = self.clients.take(None, is_shells)
        self.join(client, connection, who)
        return client

    def join(self, client: ManagerClient, connection: Connection, who: str) -> None:
        client.connections = [connection]
        self.record.joined(client, who)
        self.host.call(lambda manager: manager.join(client.number))

    @staticmethod
    def stop_timer(concerned: LeaseSeen | Open) -> None:
        if concerned.timer:
            concerned.timer.cancel()
            concerned.timer = None
