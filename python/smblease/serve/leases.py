"""Leases and oplocks as clients see them: grants, breaks, acknowledgments and their timers."""
from __future__ import annotations

import struct
from typing import TYPE_CHECKING
from uuid import UUID

from smblease import Acknowledgment, CreateAnswer, Fault, LeaseState, Notification, Status
from smblease.drive.headers import HEADER
from smblease.messages import ACKNOWLEDGMENT_SIZE
from smblease.serve.asks import Handling, Steps, Waits, acknowledging
from smblease.serve.opens import LEVEL_II, NO_LEVEL, LeaseSeen, ManagerClient, Open
from smblease.serve.packets import Answer
from smblease.serve.request import Handlers, Request
from smblease.serve.status_error import StatusError

if TYPE_CHECKING:
    from smblease.serve.connection import Connection

OPLOCK = struct.Struct("<HBBLQQ")


class Leases(Handlers):
    def granted(self, client: ManagerClient, opened: Open, answer: CreateAnswer, contexts: bytes) -> None:
        """A reply grants a lease, by these contexts. While a break is in progress nothing new is believed."""
        if answer.key is None:
            return
        lease = client.leases.setdefault(answer.key, LeaseSeen(answer.key, opened.node, answer.state, client.guid is None))
        lease.opens[opened] = None
        lease.become(answer.state)
        lease.answered(contexts)
        opened.node.opens.lease_changed(lease)
        if not answer.breaking:
            self._server.record.believes(client, lease, answer.state)

    def broken(self, client: ManagerClient, notification: Notification, message: bytes) -> None:
        """`message` is the notification as it is sent, with its NewEpoch."""
        lease, state = client.leases.get(notification.key), notification.new
        if lease is None or not client.is_connected:
            # It is on its way to a client that is cut already.
            return
        lease.told(message)
        if notification.ack_required:
            lease.broken_by, lease.broken_to = client.sent, state
            self._server.stop_timer(lease)
            lease.timer = self._server.loop.call_later(self._server.settings.break_timer,
                                                       lambda: self.expire(client, notification.key))
        else:
            lease.become(state)
            self._server.record.believes(client, lease, state)
        if client.open:
            self._oplock_broken(client.open, state, notification.ack_required)
        else:
            opened = next((it for it in lease.opens if it.connection), None)
            self._notify(opened, client.connections[0], message)

    @staticmethod
    def _notify(opened: Open | None, other: Connection, body: bytes) -> None:
        """A break is sent over the connection of an open under the key, if there is one (3.3.4.7), and encrypted as that open's
        session is."""
        connection, session = (opened and opened.connection) or other, opened and opened.session
        connection.notify(body, session.seals if session else connection.seals)

    def _oplock_broken(self, opened: Open, state: LeaseState, is_acknowledged: bool) -> None:
        """What is left of an oplock is level II, where its lease may still be read under."""
        left = LEVEL_II if LeaseState.R in state else NO_LEVEL
        was = opened.level
        opened.change_level(left)
        if left != was and opened.connection:
            self._notify(opened, opened.connection, OPLOCK.pack(24, left, 0, 0, opened.file_id, opened.file_id))
        if is_acknowledged and was == LEVEL_II:
            # A client doesn't acknowledge a break of level II.
            self._server.start(self._acknowledge_itself(opened, state & LeaseState.R))
        else:
            opened.is_breaking = is_acknowledged

    def break_own_level_ii(self, opened: Open) -> None:
        """Who changes or locks a file loses level II by that, which no key keeps (MS-FSA 2.1.4.12)."""
        lease = opened.lease if opened.level == LEVEL_II else None
        if lease is None or opened.client is None:
            return
        lease.become(LeaseState.NONE)
        self._server.record.believes(opened.client, lease, LeaseState.NONE)
        self._oplock_broken(opened, LeaseState.NONE, False)

    def _acknowledge_itself(self, opened: Open, state: LeaseState) -> Steps:
        if opened.client and opened.key:
            yield from self.acknowledged(opened.client, Acknowledgment(opened.key, state).write())

    def acknowledge(self, request: Request) -> Handling:
        """An acknowledgment of a lease, or of an oplock (2.2.24). What is as long as the first is the manager's to refuse."""
        if request.message.number(HEADER, 2) == 24 and len(request.message.data) < HEADER + ACKNOWLEDGMENT_SIZE:
            return (yield from self._acknowledge_oplock(request))
        body = request.message.part(HEADER, ACKNOWLEDGMENT_SIZE)
        return Answer(Status.SUCCESS, (yield from self.acknowledged(request.client, body)))

    def _acknowledge_oplock(self, request: Request) -> Handling:
        opened, level = request.open(), request.message.number(HEADER + 2, 1)
        if not opened.client or not opened.client.open or not opened.key or not opened.is_breaking or level > opened.level:
            raise StatusError(Status.INVALID_OPLOCK_PROTOCOL)
        opened.is_breaking = False
        opened.change_level(level)
        state = LeaseState.R if level else LeaseState.NONE
        yield from self.acknowledged(opened.client, Acknowledgment(opened.key, state).write())
        return Answer(Status.SUCCESS, OPLOCK.pack(24, level, 0, 0, opened.file_id, opened.file_id))

    def acknowledged(self, client: ManagerClient, body: bytes) -> Waits[bytes]:
        """Gives an acknowledgment to the manager; answers its response."""
        lease = self._seen_before(client, body)
        response = yield from acknowledging(client, body)
        if lease:
            lease.become(response.state)
            lease.broken_by = None
            self._server.stop_timer(lease)
        return response.write()

    def _seen_before(self, client: ManagerClient, body: bytes) -> LeaseSeen | None:
        """The lease that is acknowledged. By now the client has taken the break; nobody comes to believe more by that."""
        try:
            message = Acknowledgment.read(body)
        except Fault:
            return None
        lease = client.leases.get(message.key)
        if lease and lease.broken_by is not None and message.state & ~lease.broken_to:
            # (it may be asked for more than the manager's break would)
            raise StatusError(Status.REQUEST_NOT_ACCEPTED)
        if lease and lease.broken_by is not None:
            self._server.record.took(client, lease.broken_by)
            self._server.record.believes(client, lease, message.state & lease.believed)
        return lease

    def expire(self, client: ManagerClient, key: UUID) -> bool:
        """The timer of a break runs out: the manager closes what is open under the key."""
        server = self._server
        lease = client.leases.get(key)
        if lease is None or not server.host.manager.breaking(client.number, key):
            return False
        client.has_expired = True
        server.record.expired(client, lease.node)
        lease.broken_by = None
        server.stop_timer(lease)
        server.host.call(lambda manager: manager.expire(client.number, key))
        server.settle()
        return True

    def believes_nothing(self, opened: Open) -> None:
        """The client closes the last open of a lease that it can use."""
        client, lease = opened.client, opened.lease
        if client and lease and all(it is opened for it in lease.opens):
            self._server.record.believes(client, lease, LeaseState.NONE)
