"""The packets of a capture that have to do with SMB2, as tshark reads them."""
from __future__ import annotations

from collections.abc import Iterator, Sequence
from dataclasses import dataclass

from smblease.drive.progress import Progress
from smblease.drive.tshark import Rows, SessionKey, Source, read_rows

# ProtocolId of a message, and of what holds one (MS-SMB2 2.2.1, 2.2.41, 2.2.42)
PROTOCOL = bytes.fromhex("fe534d42")
ENCRYPTED = bytes.fromhex("fd534d42")
COMPRESSED = bytes.fromhex("fc534d42")
_FIN, _RESET = 1, 4
# what stands behind the digits of a frame of which the capture lacks the end
_CUT = "+"


@dataclass(frozen=True)
class Frame:
    """A message or a compound, in hexadecimal digits."""

    digits: str
    is_cut: bool

    @classmethod
    def of(cls, word: str) -> Frame:
        is_cut = word.endswith(_CUT)
        return cls(word[:-1] if is_cut else word, is_cut)

    def begins(self, protocol: bytes) -> bool:
        return self.digits.startswith(protocol.hex())

    def bytes_at(self, place: int, count: int) -> bytes:
        return bytes.fromhex(self.digits[2 * place:2 * (place + count)])

    def number_at(self, place: int, count: int) -> int:
        return int.from_bytes(self.bytes_at(place, count), "little")


@dataclass(frozen=True)
class Packet:
    """A packet. `acknowledged` are the bytes of the other side that its sender's host had, `end` those it has sent. What isn't
    TCP is of no stream."""

    number: int
    # in seconds, since the first packet
    time: str
    stream: int | None
    sender: str
    receiver: str
    ends: bool
    acknowledged: int
    end: int
    # something before it isn't in the capture
    is_gap: bool
    # the capture has a part of it
    is_cut: bool
    frames: tuple[Frame, ...]


@dataclass(frozen=True)
class Capture:
    """A file as it was read. Its packets stand on disk, and are gone through one reading at a time."""

    rows: Rows
    # what tshark said of a file that it couldn't read to its end
    fault: str | None

    @property
    def is_ordered(self) -> bool:
        return self.rows.numbers is None

    def packets(self) -> Iterator[Packet]:
        self.rows.lines.seek(0)
        for line in self.rows.lines:
            yield _packet(line.split(), self.rows.numbers)


def read_capture(path: str, ports: Sequence[int], keys: Sequence[SessionKey] = (), progress: Progress | None = None) -> Capture:
    """The packets of a file in the order of their times, up to where it can be read."""
    rows = read_rows(Source(path, ports, keys), progress or Progress(None))
    return Capture(rows, rows.fault)


def _packet(words: list[str], numbers: Sequence[int] | None) -> Packet:
    place, time, stream, sender, receiver, flags, acknowledged, end, gap, cut = words[:10]
    return Packet(number=int(place) if numbers is None else numbers[int(place) - 1], time=time,
                  stream=None if stream == "-" else int(stream),
                  sender=sender, receiver=receiver, ends=bool(int(flags) & (_FIN | _RESET)),
                  acknowledged=int(acknowledged), end=int(end), is_gap=gap == "gap", is_cut=cut == "cut",
                  frames=tuple(Frame.of(it) for it in words[10:]))
