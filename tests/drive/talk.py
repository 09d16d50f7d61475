"""What a capture says of leases, read apart from the judge: from the fixed parts of messages alone."""
from __future__ import annotations

import struct
from collections.abc import Iterator
from dataclasses import dataclass
from functools import cached_property

from smblease.drive.headers import FILE_IDS, HEADER, Command

GUID, ACCESS, NAME, LEASE_TAG, ON_DISK = HEADER + 12, HEADER + 24, HEADER + 44, b"RqLs", b"QFid"
NOTIFICATION_SIZE, BREAKING, WANTS_ACKNOWLEDGMENT = 44, 2, 1
OTHER_SIDE = {"from-client": "from-server", "from-server": "from-client"}


@dataclass(frozen=True)
class Said:
    """A message of a capture: the number of its line, where in its frame it begins, and the line of the last frame that its
    sender's host had acknowledged on the connection, -1 where there is none."""

    line: int
    packet: int
    connection: str
    is_request: bool
    frame: bytes
    begin: int
    after: int

    @cached_property
    def text(self) -> bytes:
        following = self._number("<L", 20)
        return self.frame[self.begin:self.begin + following if following else None]

    def _number(self, form: str, place: int) -> int:
        return int(struct.unpack_from(form, self.frame, self.begin + place)[0])

    @property
    def command(self) -> int:
        return self._number("<H", 12)

    @property
    def status(self) -> int:
        return self._number("<L", 8)

    @property
    def request(self) -> tuple[str, int]:
        """The connection and the MessageId, by which a response is that of a request."""
        return self.connection, self._number("<Q", 24)

    @property
    def file_id(self) -> bytes:
        """That which a request names, or which a CREATE response gives."""
        place = HEADER + 64 if self.command == Command.CREATE else FILE_IDS[Command(self.command)]
        return self.text[place:place + 16]

    @property
    def is_notification(self) -> bool:
        return self.command == Command.OPLOCK_BREAK and not self.is_request and self._number("<H", HEADER) == NOTIFICATION_SIZE

    @property
    def key(self) -> bytes:
        """That of a notification."""
        return self.text[HEADER + 8:HEADER + 24]

    @property
    def wants_acknowledgment(self) -> bool:
        """Of a notification."""
        return bool(self._number("<L", HEADER + 4) & WANTS_ACKNOWLEDGMENT)

    @property
    def left(self) -> int:
        """The NewLeaseState of a notification."""
        return self._number("<L", HEADER + 28)

    @property
    def lease(self) -> int:
        """Where in its text the lease's data begins; -1 where there is none."""
        found = self.text.find(LEASE_TAG)
        return found + 8 if found >= 0 else -1

    @property
    def access(self) -> int:
        """The DesiredAccess of a CREATE request."""
        return self._number("<L", ACCESS)

    @property
    def name(self) -> bytes:
        place, length = struct.unpack_from("<HH", self.text, NAME)
        return self.text[place:place + length]


def said_in(lines: list[str]) -> Iterator[Said]:
    frames: dict[tuple[str, str], list[int]] = {}
    for number, line in enumerate(lines):
        words = line.split()
        if not line.startswith("frame ") or words[8] == "-":
            continue
        frames.setdefault((words[3], words[6]), []).append(number)
        had = frames.get((words[3], OTHER_SIDE[words[6]]), [])[:int(words[7])]
        frame, begin = bytes.fromhex(words[8]), 0
        while begin < len(frame):
            one = Said(number, int(words[1]), words[3], words[6] == "from-client", frame, begin, had[-1] if had else -1)
            if len(one.text) > HEADER:
                yield one
            begin += len(one.text)


@dataclass(frozen=True)
class Grant:
    """A CREATE response with a lease, and its request."""

    said: Said
    asked: Said

    @property
    def file(self) -> bytes:
        """Its number on the disk, where the response has that, or else its name."""
        found = self.said.text.find(ON_DISK)
        return self.said.text[found:found + 40] if found >= 0 else self.asked.name

    @property
    def key(self) -> bytes:
        return self.said.text[self.said.lease:self.said.lease + 16]

    @property
    def state(self) -> int:
        return int(struct.unpack_from("<L", self.said.text, self.said.lease + 16)[0])

    @property
    def is_breaking(self) -> bool:
        """It says what the lease is while it is being broken, and grants nothing (SMB2_LEASE_FLAG_BREAK_IN_PROGRESS)."""
        return bool(struct.unpack_from("<L", self.said.text, self.said.lease + 20)[0] & BREAKING)


class Talk:
    """What the messages of a capture say of grants, breaks and uses."""

    def __init__(self, lines: list[str]) -> None:
        self.said = list(said_in(lines))
        negotiations = [it for it in self.said if it.command == Command.NEGOTIATE and it.is_request]
        self.clients = {it.connection: it.text[GUID:GUID + 16] for it in negotiations}
        # the lines at which connections end, and the lines of the answers to requests that were done
        self.ends = {line.split()[3]: number for number, line in reversed(list(enumerate(lines))) if line.startswith("end ")}
        self.done = {it.request: it.line for it in self.said if not it.is_request and not it.status}
        self.breaks = [it for it in self.said if it.is_notification]
        self.grants = list(self._grants())

    def _grants(self) -> Iterator[Grant]:
        asked: dict[tuple[str, int], Said] = {}
        for one in (it for it in self.said if it.command == Command.CREATE):
            if one.is_request:
                asked[one.request] = one
            elif not one.status and one.lease >= 0 and one.request in asked:
                yield Grant(one, asked[one.request])

    def client(self, one: Grant | Said) -> bytes:
        """The ClientGuid; empty where the capture doesn't say it."""
        return self.clients.get((one.said if isinstance(one, Grant) else one).connection, b"")

    def breaks_of(self, lease: Grant) -> list[Said]:
        return [it for it in self.breaks if it.key == lease.key and self.client(it) == self.client(lease)]

    def grants_of(self, lease: Grant) -> list[Grant]:
        """All those of the same client and key, in their order."""
        return [it for it in self.grants if it.key == lease.key and self.client(it) == self.client(lease)]

    def requests_by(self, opens: set[bytes], connection: str) -> list[Said]:
        return [it for it in self.said if it.is_request and it.connection == connection and it.command in FILE_IDS
                and it.file_id in opens]
