"""How long a connection is kept without a session, and what it may take of memory until then."""
from __future__ import annotations

import asyncio
from typing import TYPE_CHECKING

if TYPE_CHECKING:
    from smblease.serve.connection import Connection

# Bytes that the server has in memory for those without a session, and what it takes one for that is half made.
MOST_WITHOUT_SESSION, HALF_MADE = 1 << 26, 2048


class SessionWait:
    def __init__(self, connection: Connection) -> None:
        self._connection = connection
        self._timer: asyncio.TimerHandle | None = None
        # bytes that count
        self._kept = 0

    def begin(self) -> None:
        """It has none, and is closed unless it gets one in time."""
        server = self._connection.server
        self._timer = server.loop.call_later(server.settings.session_timer, self._connection.close)

    def end(self) -> None:
        if self._timer:
            self._timer.cancel()
            self._timer = None

    def count(self) -> bool:
        """Counts what is kept without a session, or for one that is half made; whether it is within what all may have."""
        connection, kept = self._connection, 0
        if connection.is_open:
            kept = 0 if connection.client else connection.unfinished + connection.unread
            kept += sum(HALF_MADE + it.authentication.kept for it in connection.sessions.values() if it.authentication)
        more = kept - self._kept
        self._kept = kept
        connection.server.without_session += more
        return more <= 0 or connection.server.without_session <= MOST_WITHOUT_SESSION
