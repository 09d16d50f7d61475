"""Breaks that the shell needs for deletion, renames, locks and what empties a file."""
from __future__ import annotations

from collections.abc import Callable
from uuid import UUID

from smblease import Access, Extent, Share, Status
from smblease.serve.asks import Changing, Emptying, Steps, closing, opening
from smblease.serve.node import Node
from smblease.serve.opens import ManagerClient, Open
from smblease.serve.request import Handlers, Request
from smblease.serve.status_error import RefusedByManager, StatusError


class ForcedBreaks(Handlers):
    def break_handles(self, request: Request, node: Node, client: ManagerClient | None, key: UUID | None) -> Steps:
        """Has all others give up the handles that they hold. It goes by the key of the one that asks, which gives up nothing."""
        if not node.opens.leases:
            return
        yield Changing(client or request.client, request.client, key if client else None, node, Extent.HANDLES)
        self._check_connected(request)

    def break_all(self, request: Request, opened: Open, effect: Callable[[], None]) -> Steps:
        """Has all others give up all that they cache, and has the effect done then."""
        node, own = opened.node, opened.lease
        if all(it is own for it in node.opens.leases):
            effect()
            return

        def done() -> None:
            if opened.file_id not in self._server.opens:
                raise StatusError(Status.FILE_CLOSED)
            effect()
        yield Changing(opened.client or request.client, request.client, opened.key, node, Extent.ALL, done)

    def break_for_emptying(self, request: Request, node: Node, key: UUID | None) -> Steps:
        """Has all others give up all that they cache, before a create that empties the file."""
        yield Emptying(request.client, key, node)
        self._check_connected(request)

    @staticmethod
    def _check_connected(request: Request) -> None:
        if request.connection.client is None:
            raise StatusError(Status.USER_SESSION_DELETED)

    def open_and_close(self, request: Request, node: Node, share: Share) -> Steps:
        """An open of a client of its own that reads, closed at once where it is granted."""
        client = self._server.borrow(request.connection, "the shell, for one request", is_shells=True)
        try:
            made = yield from opening(client, node, Access.READ, share)
            yield from closing(client, node, made.file_id)
        except RefusedByManager:
            pass
        finally:
            self._server.free(client)
