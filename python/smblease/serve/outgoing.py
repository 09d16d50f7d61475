"""What is on its way to a client."""
from __future__ import annotations

import asyncio
from typing import TYPE_CHECKING

from smblease.serve.chains import UNREAD, Chain, frame_of
from smblease.serve.faults_on_demand import ON_ANSWERS, WAITS, Action, Fault
from smblease.serve.packets import Response

if TYPE_CHECKING:
    from smblease.serve.connection import Connection

# Past so many bytes that a client hasn't read it is closed, or where all have too many.
MOST_UNREAD, MOST_UNREAD_OF_ALL = 1 << 24, 1 << 27
# So many answers go in one piece, if none of them is large.
MOST_TOGETHER, LARGE = 32, 4096


class Outgoing:
    """Answers that wait for others of their compound, frames that go together, and those that a fault has go later."""

    def __init__(self, connection: Connection) -> None:
        self._connection = connection
        self._transport = asyncio.Transport()
        # whether small frames wait for others
        self.collects = False
        # chains whose answers wait for others
        self.holding: dict[Chain, None] = {}
        self._frames: list[bytes] = []
        self._after_next: list[bytes] = []

    def begin(self, transport: asyncio.Transport) -> None:
        self._transport = transport
        transport.set_write_buffer_limits(UNREAD)

    @property
    def unread(self) -> int:
        return self._transport.get_write_buffer_size() + sum(it.held for it in self.holding)

    def send_held(self) -> None:
        """What chains have been answered goes before what is decided later."""
        if not self.holding:
            return
        holding, self.holding = self.holding, {}
        for chain in holding:
            if chain.has_answers:
                self.send(chain.take_answers())

    def send_all(self) -> None:
        self.send_held()
        self.flush()

    def forget(self) -> None:
        self.holding.clear()

    def send(self, data: bytes) -> None:
        self._frames.append(data)
        if self._after_next:
            self._frames += self._after_next
            self._after_next = []
        if not self.collects or len(self._frames) >= MOST_TOGETHER or len(data) > LARGE:
            self.flush()

    def flush(self) -> None:
        connection, server = self._connection, self._connection.server
        frames, self._frames = self._frames, []
        if not frames or not connection.is_open or self._transport.is_closing():
            return
        try:
            self._transport.write(b"".join(frames) if len(frames) > 1 else frames[0])
        except MemoryError:
            # What is missing there would be taken for what was answered.
            server.loop.call_soon(connection.close)
        unread = connection.unread
        if unread > MOST_UNREAD or unread > UNREAD and sum(it.unread for it in server.connections) > MOST_UNREAD_OF_ALL:
            server.loop.call_soon(connection.close)

    def keep_back(self, kind: str, response: Response, met: Action | None = None) -> Action | None:
        """Where a fault is asked for with this message it goes by itself, later or never; one that `met` a fault meets none."""
        connection, faults = self._connection, self._connection.server.faults
        if not faults.waiting:
            return None
        faults.take(WAITS, kind, connection.peer)
        fault = None if met else faults.take(ON_ANSWERS, kind, connection.peer)
        if fault is None:
            return None
        for client in connection.server.clients.of(connection):
            connection.server.record.strayed(client, f"doesn't get what is sent as it is sent: {fault.action.value}")
        if fault.action is not Action.DROP:
            self._keep(fault, frame_of([response]))
        return fault.action

    def _keep(self, fault: Fault, data: bytes) -> None:
        if fault.action is Action.DELAY:
            self._connection.server.loop.call_later(fault.seconds, self.send, data)
        else:
            self._after_next.append(data)
