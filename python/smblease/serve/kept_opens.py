"""Durable opens that wait for their clients."""
from __future__ import annotations

from typing import TYPE_CHECKING

from smblease.serve.opens import Open

if TYPE_CHECKING:
    from smblease.serve.server import Server

# Those of one client, and of all; the newest of them.
MOST_KEPT, MOST_KEPT_OF_ALL = 64, 4096


class KeptOpens:
    """Opens without a connection, the one that was left first before the others."""

    def __init__(self, server: Server) -> None:
        self._server = server
        self._opens: dict[int, Open] = {}

    def __contains__(self, file_id: int) -> bool:
        return file_id in self._opens

    def keep(self, opened: Open) -> None:
        server = self._server
        seconds = opened.timeout / 1000 if opened.timeout else server.settings.durable_timer
        opened.timer = server.loop.call_later(seconds, lambda: server.scavenge(opened.file_id))
        self._opens[opened.file_id] = opened

    def limit(self, opens: list[Open]) -> None:
        """The newest of these are kept, which one client left, and of all that are kept."""
        for opened in opens[:-MOST_KEPT]:
            self._server.scavenge(opened.file_id)
        while len(self._opens) > MOST_KEPT_OF_ALL:
            self._server.scavenge(next(iter(self._opens)))

    def let_go(self, opened: Open) -> None:
        """It is connected again, or gone."""
        self._server.stop_timer(opened)
        self._opens.pop(opened.file_id, None)
