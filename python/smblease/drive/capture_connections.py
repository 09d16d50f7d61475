"""Of a capture's connections: their ends, whose server it is, and what can't be judged of them."""
from __future__ import annotations

import uuid
from collections import Counter
from collections.abc import Iterable, Iterator
from dataclasses import dataclass, field
from enum import Enum

from smblease.drive.headers import FROM_SERVER, Command
from smblease.drive.packets import COMPRESSED, ENCRYPTED, PROTOCOL, Frame, Packet

# the port of a server of which no message can be read
DIRECT_TCP = 445


class LeftOut(Enum):
    """What isn't judged, with the words for one of it and for several."""

    ENCRYPTED = "frame that is encrypted", "frames that are encrypted"
    COMPRESSED = "frame that is compressed", "frames that are compressed"
    UNREADABLE = "frame that can't be read", "frames that can't be read"
    CUT = "packet that was cut short when it was captured", "packets that were cut short when they were captured"
    GAP = "gap, where packets aren't in the capture", "gaps, where packets aren't in the capture"
    NOT_NEGOTIATED = ("connection without its NEGOTIATE request, so that it isn't known whose it is",
                      "connections without their NEGOTIATE request, so that it isn't known whose they are")
    NOT_TCP = "frame that isn't over TCP", "frames that aren't over TCP"

    def told(self, count: int) -> str:
        one, several = self.value
        return f"{count:,} {one if count == 1 else several}"


@dataclass
class Connection:
    """A connection that has frames. Its ends are those of its first frame that can be read, or else of the first one."""

    client: str
    server: str
    is_sure: bool
    has_client: bool = False
    guid: uuid.UUID | None = None


@dataclass
class Overview:
    """What there is in a capture. `cut_frames` counts those of packets that were cut short, as far as they were."""

    connections: dict[int, Connection] = field(default_factory=dict)
    left_out: Counter[LeftOut] = field(default_factory=Counter)
    cut_frames: int = 0
    last_packet: int = 0

    def left_out_of(self, unread: int) -> Counter[LeftOut]:
        """What is left out where so many frames can't be read, whatever the reason."""
        others = self.left_out[LeftOut.ENCRYPTED] + self.left_out[LeftOut.COMPRESSED] + self.cut_frames
        return self.left_out + Counter({LeftOut.UNREADABLE: unread - others})

    def servers(self) -> dict[int, str]:
        """What each connection's server is called: by its address, and where servers of several ServerGuids are there, by that
        too."""
        guids: dict[str, set[uuid.UUID]] = {}
        for one in self.connections.values():
            guids.setdefault(one.server, set()).update([one.guid] if one.guid else [])
        return {stream: f"{one.server}#{one.guid}" if one.guid and len(guids[one.server]) > 1 else one.server
                for stream, one in self.connections.items()}


def overview_of(packets: Iterable[Packet]) -> Overview:
    made = Overview()
    gaps: Counter[int] = Counter()
    cuts: Counter[int] = Counter()
    for packet in packets:
        made.last_packet = packet.number
        if packet.stream is None:
            made.left_out[LeftOut.NOT_TCP] += len(packet.frames)
            continue
        if packet.is_gap:
            gaps[packet.stream] += 1
        if packet.is_cut:
            cuts[packet.stream] += 1
        _note_frames(made, packet)
    # (Connections without frames aren't of SMB2.)
    made.left_out[LeftOut.GAP] = sum(gaps[it] for it in made.connections)
    made.left_out[LeftOut.CUT] = sum(cuts[it] for it in made.connections)
    made.left_out[LeftOut.NOT_NEGOTIATED] = sum(not it.has_client for it in made.connections.values())
    return made


def _note_frames(made: Overview, packet: Packet) -> None:
    for frame in packet.frames:
        is_readable = frame.begins(PROTOCOL)
        if frame.is_cut:
            made.cut_frames += packet.is_cut
        elif not is_readable:
            made.left_out.update(_reasons(frame))
        _note_connection(made.connections, packet, frame, is_readable)


def _reasons(frame: Frame) -> Iterator[LeftOut]:
    if frame.begins(ENCRYPTED):
        yield LeftOut.ENCRYPTED
    elif frame.begins(COMPRESSED):
        yield LeftOut.COMPRESSED


def _note_connection(connections: dict[int, Connection], packet: Packet, frame: Frame, is_readable: bool) -> None:
    assert packet.stream is not None
    one = connections.get(packet.stream)
    if not one or is_readable and not one.is_sure:
        one = connections[packet.stream] = _ends(packet, frame, is_readable)
    if is_readable and not frame.is_cut and frame.number_at(12, 2) == Command.NEGOTIATE.value:
        _note_negotiate(one, frame)


def _note_negotiate(one: Connection, frame: Frame) -> None:
    """ServerGuid is at 72 of a response that grants (2.2.4)."""
    if not _is_from_server(frame):
        one.has_client = True
    elif frame.number_at(8, 4) == 0:
        one.guid = uuid.UUID(bytes_le=frame.bytes_at(72, 16).ljust(16, b"\0"))


def _is_from_server(frame: Frame) -> bool:
    return bool(frame.number_at(16, 4) & FROM_SERVER)


def _ends(packet: Packet, frame: Frame, is_readable: bool) -> Connection:
    """Whose messages can't be read is the server's by its port."""
    is_answer = _is_from_server(frame) if is_readable else packet.sender.endswith(f":{DIRECT_TCP}")
    client, server = (packet.receiver, packet.sender) if is_answer else (packet.sender, packet.receiver)
    return Connection(client, server, is_readable)
