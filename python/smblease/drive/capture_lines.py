"""A capture as the lines that `leasecheck capture` reads (docs/FORMATS.md), one for each frame of the transport."""
from __future__ import annotations

from bisect import bisect_right
from collections.abc import Iterator
from dataclasses import dataclass, field

from smblease.drive.capture_connections import Overview, overview_of
from smblease.drive.capture_names import without_case
from smblease.drive.packets import Capture, Frame, Packet

# the bytes of a frame of which a part isn't there
_NOT_THERE = "-"


@dataclass
class _Side:
    """What a side of a connection has sent: where each of its frames ends in its stream of bytes."""

    ends: list[int] = field(default_factory=list)

    def sends(self, end: int) -> None:
        self.ends.append(max(end, self.ends[-1] if self.ends else 0))

    def had(self, acknowledged: int) -> int:
        """How many of its frames these bytes hold."""
        return bisect_right(self.ends, acknowledged)


@dataclass
class _Connection:
    client: str
    server: str
    ignores_case: bool
    near: _Side = field(default_factory=_Side)
    far: _Side = field(default_factory=_Side)

    def lines(self, packet: Packet) -> Iterator[str]:
        place = f"{packet.number} {packet.time} {packet.stream}"
        is_client = packet.sender == self.client
        sent, other = (self.near, self.far) if is_client else (self.far, self.near)
        side = "from-client" if is_client else "from-server"
        if packet.is_gap:
            yield f"gap {place}"
        had = other.had(packet.acknowledged)
        for frame in packet.frames:
            sent.sends(packet.end)
            yield f"frame {place} {self.client} {self.server} {side} {had} {self._data(frame)}"
        # What was cut off comes after what is there.
        if packet.is_cut:
            yield f"gap {place}"
        if packet.ends:
            yield f"end {place}"

    def _data(self, frame: Frame) -> str:
        if frame.is_cut:
            return _NOT_THERE
        return without_case(frame.digits) if self.ignores_case else frame.digits


def lines_of(capture: Capture, overview: Overview | None = None, ignores_case: bool = False) -> Iterator[str]:
    """The lines of those connections that have frames; where case is ignored, with all names in upper case."""
    known = overview or overview_of(capture.packets())
    servers = known.servers()
    connections = {stream: _Connection(one.client, servers[stream], ignores_case) for stream, one in known.connections.items()}
    for packet in capture.packets():
        if packet.stream in connections:
            yield from connections[packet.stream].lines(packet)
    if capture.fault:
        yield f"# {capture.fault}"
