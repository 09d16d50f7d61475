"""Breaks that somebody wants now: a lease is lowered to a state by the requests of a client of the shell's own.

Which request lowers what to what is the manager's decision (docs/PROFILE.md): a create that reads ends W, one that shares nothing
ends H, and a write ends all."""
from __future__ import annotations

from collections.abc import Callable, Sequence

from smblease import Access, LeaseState, Share
from smblease.serve.access import SHARE_READ, SHARE_WRITE, counts
from smblease.serve.asks import Steps, closing, opening, writing
from smblease.serve.node import Node
from smblease.serve.opens import LeaseSeen, ManagerClient
from smblease.serve.request import Handlers
from smblease.serve.status_error import RefusedByManager

Request = Callable[[ManagerClient, Node], Steps]
STATES = {it: LeaseState.of(it) for it in ("none", "R", "RH", "RW", "RWH")}


def _read(client: ManagerClient, node: Node) -> Steps:
    made = yield from opening(client, node, Access.READ, Share.READ_WRITE)
    yield from closing(client, node, made.file_id)


def _share_nothing(client: ManagerClient, node: Node) -> Steps:
    made = yield from opening(client, node, Access.READ, Share.NONE)
    yield from closing(client, node, made.file_id)


def _write(client: ManagerClient, node: Node) -> Steps:
    made = yield from opening(client, node, Access.WRITE, Share.READ_WRITE)
    yield from writing(client, node, made.file_id, lambda: None)
    yield from closing(client, node, made.file_id)


# From a state to a lower one, by one break or by two.
REQUESTS: dict[tuple[str, str], Sequence[Request]] = {
    ("RWH", "RH"): [_read], ("RWH", "RW"): [_share_nothing], ("RWH", "R"): [_share_nothing, _read], ("RWH", "none"): [_write],
    ("RW", "R"): [_read], ("RW", "none"): [_write], ("RH", "R"): [_share_nothing], ("RH", "none"): [_write],
    ("R", "none"): [_write]}
# What all opens of the file have to share for a request to be decided; else it is refused, and breaks H alone.
NEEDED: dict[Request, int] = {_read: SHARE_READ, _write: SHARE_WRITE}


class Lowering(Handlers):
    def can_lower(self, lease: LeaseSeen, state: LeaseState) -> bool:
        """Whether the opens of its file let requests go on that lower it so far."""
        needed = [NEEDED.get(it, 0) for it in self._requests(lease, state)]
        return all(it.share & bits == bits for it in lease.node.opens if counts(it.access) for bits in needed)

    def lower(self, client: ManagerClient, lease: LeaseSeen, state: LeaseState) -> bool:
        """Whether its client is sent a break by this. One that is being broken isn't broken once more."""
        requests, before = self._requests(lease, state), lease.state
        if not requests or not client.is_connected or lease.broken_by is not None:
            return False
        self._server.start(self._ask(client, lease.node, requests))
        self._server.settle()
        return lease.broken_by is not None or lease.state != before

    @staticmethod
    def _requests(lease: LeaseSeen, state: LeaseState) -> Sequence[Request]:
        return REQUESTS.get((str(lease.state), str(state)), ())

    def _ask(self, client: ManagerClient, node: Node, requests: Sequence[Request]) -> Steps:
        """The file is held as long as the requests wait."""
        asking = self._server.borrow(client.connections[0], "the shell, by its control", is_shells=True)
        self._server.names.hold(node)
        try:
            for request in requests:
                try:
                    yield from request(asking, node)
                except RefusedByManager:
                    pass
        finally:
            self._server.names.release(node)
            self._server.free(asking)
