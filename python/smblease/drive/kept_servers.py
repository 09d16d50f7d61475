"""A private server that serves many runs, one after the other."""
from __future__ import annotations

import uuid
from collections.abc import Callable

from smblease.drive.place import Server


class KeptServers:
    """Makes the servers of runs, of which one process serves many: each run has files of its own there, and ClientGuids and keys
    of its own anyway. After so many runs, or one that failed, there is a new one."""

    MOST_RUNS = 100

    def __init__(self, make: Callable[[], Server]) -> None:
        self._make = make
        self._server: Server | None = None
        self._runs = 0

    def __call__(self) -> Server:
        if self._server is None or self._runs == self.MOST_RUNS:
            self.close()
            self._server, self._runs = self._make(), 0
        self._runs += 1
        return ServerOfRun(self._server, self)

    def close(self) -> None:
        """Ends the server, if there is one."""
        server, self._server = self._server, None
        if server:
            server.close()


class ServerOfRun(Server):
    """A kept server as one run has it."""

    def __init__(self, server: Server, keeper: KeptServers) -> None:
        self.place, self.is_profiled, self.timers = server.place, server.is_profiled, server.timers
        self._server = server
        self._keeper = keeper
        self._prefix = uuid.uuid4().hex

    def name_of(self, file: int) -> str:
        return f"{self._prefix}-{self._server.name_of(file)}"

    def is_prepared(self) -> None:
        self._server.is_prepared()

    def new_process(self) -> int | None:
        return self._server.new_process()

    def wait_for_end(self, process: int | None) -> None:
        self._server.wait_for_end(process)

    def begin_break_timer(self, process: int | None, guid: bytes, key: bytes) -> None:
        self._server.begin_break_timer(process, guid, key)

    def end_break_timer(self, process: int | None) -> None:
        self._server.end_break_timer(process)

    def pass_durable_timer(self, file_ids: list[int]) -> None:
        self._server.pass_durable_timer(file_ids)

    def content(self, name: str) -> bytes | None:
        return self._server.content(name)

    def close(self) -> None:
        """It stays for the next run, unless this one failed."""
        if self.has_failed:
            self._keeper.close()
