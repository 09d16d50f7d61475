"""What `leasecheck capture` finds in a capture, and the verdict on the whole of it."""
from __future__ import annotations

import re
from collections.abc import Iterator, Sequence
from dataclasses import dataclass, replace
from enum import Enum

from smblease.drive.capture_leases import LeaseFinding, lease_in

_UNDECIDED = ("no client of it is", "what is shown can't have happened", "it can have happened in too many ways")
# A name may have any character, and the words behind it have no colon with a space.
_GRANTED = "unsafe by the server's grants"
_JUDGED = rf"safe|(?:unsafe|{_GRANTED})(?:, packet \d+ at [0-9.]+)?|not judged, (?:{'|'.join(_UNDECIDED)})"
_FILE = re.compile(rf"file(?P<place>.*): (?P<judged>{_JUDGED})(?P<clients>(?:, [!-~]+)*)")
_AT = r"packet (?P<packet>\d+) at (?P<seconds>[0-9.]+)"
_WORDS = re.compile(rf"(?P<verdict>safe|unsafe|not judged)(?P<granted> by the server's grants)?(?:, {_AT}|, (?P<reason>.*))?")
_CLIENT = re.compile(rf"client (?P<address>[!-~]+): not judged(?: after {_AT})?, (?P<reason>.*)")
_COUNTS = re.compile(r"(?P<connections>\d+) connections, (?P<frames>\d+) frames, (?P<unread>\d+) of them unreadable")
_REMARK = "# "


class Verdict(Enum):
    """The verdict on a capture, with its word and its exit status."""

    SAFE = "safe", 0
    UNSAFE = "unsafe", 3
    NOTHING_JUDGED = "nothing judged", 4
    IN_PART = "judged in part", 5

    def __init__(self, word: str, status: int) -> None:
        self.word, self.status = word, status


# those of leasecheck capture
_SAID = {it.word: it for it in (Verdict.SAFE, Verdict.UNSAFE, Verdict.NOTHING_JUDGED)}


@dataclass(frozen=True)
class FileFinding:
    """A file on which leases were granted, what is decided of it, its clients, one for each lease, and where it is unsafe what
    had been said of each lease."""

    place: str
    judged: str
    clients: tuple[str, ...]
    leases: tuple[LeaseFinding, ...] = ()

    @property
    def _words(self) -> re.Match[str]:
        found = _WORDS.fullmatch(self.judged)
        assert found, self.judged
        return found

    @property
    def verdict(self) -> str:
        return self._words["verdict"]

    @property
    def reason(self) -> str | None:
        """Why nothing is decided of it."""
        return self._words["reason"]

    @property
    def packet(self) -> int | None:
        """The packet at which the first rule is broken in the order that is shown."""
        return int(self._words["packet"]) if self._words["packet"] else None

    @property
    def seconds(self) -> str | None:
        """The time of that packet, in seconds from the first one."""
        return self._words["seconds"]

    @property
    def is_granted(self) -> bool:
        """Whether it is unsafe by what the server granted, whatever its clients took."""
        return bool(self._words["granted"])

    @property
    def is_safe(self) -> bool:
        return self.verdict == "safe"

    @property
    def is_judged(self) -> bool:
        return self.verdict != "not judged"

    def without(self, lost: Sequence[str]) -> FileFinding:
        """It isn't safe where one of its clients isn't judged."""
        missing = [it for it in dict.fromkeys(self.clients) if it in lost]
        if not self.is_safe or not missing:
            return self
        return replace(self, judged=f"not judged, since {' and '.join(missing)} {'is' if len(missing) == 1 else 'are'}n't")

    def __str__(self) -> str:
        return f"file{self.place}: {', '.join((self.judged, *self.clients))}"


@dataclass(frozen=True)
class ClientFinding:
    """A client that isn't judged, or not after a packet, with its time in seconds from the first one, and why."""

    address: str
    packet: int | None
    seconds: str | None
    reason: str

    def __str__(self) -> str:
        since = "" if self.packet is None else f" after packet {self.packet} at {self.seconds}"
        return f"client {self.address}: not judged{since}, {self.reason}"


@dataclass(frozen=True)
class Counts:
    """How much there is in a capture: its connections, their frames, and those of them that can't be read."""

    connections: int
    frames: int
    unread: int

    def __str__(self) -> str:
        return f"{self.connections} connections, {self.frames} frames, {self.unread} of them unreadable"


@dataclass(frozen=True)
class Findings:
    """The verdict of leasecheck, what it finds of files, clients that aren't judged, its other lines, and how much there is."""

    said: Verdict
    files: tuple[FileFinding, ...]
    clients: tuple[ClientFinding, ...]
    others: tuple[str, ...]
    counts: Counts

    def verdict(self, is_whole: bool) -> Verdict:
        """Safe is what is so of each file and each client, where nothing of the capture is left out."""
        if self.said is not Verdict.SAFE:
            return self.said
        is_judged = is_whole and not self.clients and all(it.is_judged for it in self.files)
        return Verdict.SAFE if is_judged else Verdict.IN_PART

    def lines(self) -> Iterator[str]:
        for file in self.files:
            yield str(file)
            yield from map(str, file.leases)
        yield from map(str, self.clients)
        yield from self.others
        yield str(self.counts)


def findings_in(lines: Sequence[str]) -> Findings:
    """What the lines say, of which the first is the verdict."""
    clients = tuple(_client(it) for line in lines[1:] if (it := _CLIENT.fullmatch(line)))
    files: list[FileFinding] = []
    others: list[str] = []
    for line in lines[1:-1]:
        lease = lease_in(line) if files and not others else None
        if file := _FILE.fullmatch(line):
            files.append(_file(file).without([one.address for one in clients]))
        elif lease:
            files[-1] = replace(files[-1], leases=(*files[-1].leases, lease))
        elif not _CLIENT.fullmatch(line):
            others.append(line)
    return Findings(_SAID[lines[0]], tuple(files), clients, tuple(others), _counts(lines[-1]))


def _client(found: re.Match[str]) -> ClientFinding:
    packet = int(found["packet"]) if found["packet"] else None
    return ClientFinding(found["address"], packet, found["seconds"], found["reason"])


def _counts(line: str) -> Counts:
    found = _COUNTS.fullmatch(line)
    assert found, line
    return Counts(*map(int, found.groups()))


def _file(found: re.Match[str]) -> FileFinding:
    return FileFinding(found["place"], found["judged"], tuple(found["clients"].split(", ")[1:]))


def parted(text: str, is_record: bool) -> tuple[list[str], list[str]]:
    """What leasecheck printed: the lines of a record, if it is one, and the verdict with the findings, there remarks."""
    lines = text.split("\n")[:-1]
    if not is_record:
        return [], lines
    place = max(place for place, line in enumerate(lines) if line.startswith(_REMARK) and line[len(_REMARK):] in _SAID)
    return lines[:place], [line[len(_REMARK):] for line in lines[place:]]
