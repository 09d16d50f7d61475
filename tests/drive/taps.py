"""Connections with a tap at either end: what a capture made there has of them, as the lines that `leasecheck capture` reads.

A message is made, leaves its host, arrives at the other one, and is taken there. In each direction of a connection messages keep
their order; apart from that these steps come as they may. A tap has a message where it leaves or arrives.
"""
from __future__ import annotations

import random
from collections import deque
from dataclasses import dataclass, field
from typing import Any

from tests.drive.hand_made import compound

CLIENT, SERVER = "client", "server"
SIDES = (CLIENT, SERVER)
OTHER = {CLIENT: SERVER, SERVER: CLIENT}


@dataclass(frozen=True)
class Frame:
    """Messages that go as one, and what each is to the host that takes it; without messages it is the end of a connection."""

    messages: tuple[bytes, ...]
    meant: tuple[Any, ...]
    # how many frames of the other side its host had acknowledged as it left
    acknowledged: int = 0

    @property
    def is_end(self) -> bool:
        return not self.messages


END = Frame((), ())


@dataclass
class Way:
    """One direction of a connection."""

    made: deque[Frame] = field(default_factory=deque)
    going: deque[Frame] = field(default_factory=deque)
    came: deque[Frame] = field(default_factory=deque)
    arrived: int = 0
    acknowledged: int = 0


class Taps:
    """The lines of a capture at each end. Some frames may be missing there, of which a gap says so once it is noticed: where
    the next frame of that side comes, or at the end."""

    def __init__(self, chance: random.Random, misses: float) -> None:
        self._chance, self._misses = chance, misses
        self._lines: dict[str, list[str]] = {side: [] for side in SIDES}
        # by tap, connection and sender: which frames were there, and whether one before the next is missing
        self._seen: dict[tuple[str, int, str], list[bool]] = {}
        self._gaps: set[tuple[str, int, str]] = set()

    def text(self, side: str) -> str:
        ended = [connection for tap, connection, sender in sorted(self._gaps) if tap == side]
        last = [f"gap {len(self._lines[side]) + number} 9999 {connection}" for number, connection in enumerate(ended, 1)]
        return "".join(f"{line}\n" for line in self._lines[side] + last)

    def sees(self, side: str, connection: Connection, sender: str, frame: Frame) -> None:
        way = (side, connection.number, sender)
        if frame.is_end:
            self._adds(side, "end", connection, "")
            return
        there = self._chance.random() >= self._misses
        self._seen.setdefault(way, []).append(there)
        if not there:
            self._gaps.add(way)
            return
        if way in self._gaps:
            self._gaps.remove(way)
            self._adds(side, "gap", connection, "")
        had = sum(self._seen.get((side, connection.number, OTHER[sender]), [])[:frame.acknowledged])
        ends = f"{connection.client_address} {connection.server_address} from-{sender}"
        self._adds(side, "frame", connection, f" {ends} {had} {compound(list(frame.messages)).hex()}")

    def _adds(self, side: str, kind: str, connection: Connection, more: str) -> None:
        lines = self._lines[side]
        packet = len(lines) + 1
        lines.append(f"{kind} {packet} {packet / 100:.2f} {connection.number}{more}")

    def had(self, way: Way) -> int:
        """What a host acknowledges of the frames that arrived on this way: most often all of them."""
        if self._chance.random() < 0.7:
            way.acknowledged = way.arrived
        else:
            way.acknowledged = self._chance.randint(way.acknowledged, way.arrived)
        return way.acknowledged


class Connection:
    """A TCP connection of a client; `ways` are by the side that sends."""

    def __init__(self, number: int, client: int, server: int, taps: Taps) -> None:
        self.number, self.client, self.server = number, client, server
        self.client_address, self.server_address = f"10.0.0.{client}:{50000 + number}", f"10.0.1.{server}:445"
        self.session = 1000 + number
        self.ways = {side: Way() for side in SIDES}
        # the sides that use it no more
        self.left: set[str] = set()
        self._taps = taps
        # (the first three messages are those that every connection begins with)
        self._messages = 3

    def next_message(self) -> int:
        """The next MessageId."""
        self._messages += 1
        return self._messages

    @property
    def is_busy(self) -> bool:
        """Whether anything is on its way."""
        return any(way.made or way.going or way.came for way in self.ways.values())

    def sends(self, side: str, messages: tuple[bytes, ...], meant: tuple[Any, ...]) -> None:
        if side not in self.left:
            self.ways[side].made.append(Frame(messages, meant))

    def ends(self, side: str, at_once: bool = False, silently: bool = False) -> None:
        """A side ends it: after what it made before, or at once, so that nothing of that leaves; or nothing of it is seen."""
        self.left.add(side)
        self.ways[OTHER[side]].came.clear()
        if at_once or silently:
            self.ways[side].made.clear()
        if not silently:
            self.ways[side].made.append(END)

    def leaves(self, side: str) -> None:
        way, back = self.ways[side], self.ways[OTHER[side]]
        made = way.made.popleft()
        frame = Frame(made.messages, made.meant, self._taps.had(back))
        way.going.append(frame)
        self._taps.sees(side, self, side, frame)

    def arrives(self, side: str) -> None:
        """A frame of this side arrives at the other one."""
        way = self.ways[side]
        frame = way.going.popleft()
        way.arrived += not frame.is_end
        self._taps.sees(OTHER[side], self, side, frame)
        if OTHER[side] not in self.left:
            way.came.append(frame)
