"""Why leases that drive/capture names clash, by the packets of a capture: the known faults of smbd (docs/FOUND_ON_SMBD.md)."""
from __future__ import annotations

from collections.abc import Iterator
from enum import Enum
from itertools import permutations
from typing import NamedTuple

from smblease.drive.capture_findings import FileFinding
from smblease.drive.capture_leases import LeaseFinding
from smblease.drive.headers import Command

from tests.drive.talk import Grant, Talk

R, W = 1, 4
STATES = {"R": R, "H": 2, "W": W}
# FILE_READ_ATTRIBUTES, FILE_WRITE_ATTRIBUTES and SYNCHRONIZE: an open with no other rights
OF_ATTRIBUTES = 0x80 | 0x100 | 0x100000


class Cause(Enum):
    ATTRIBUTES = "a lease for attributes alone"
    OUTLIVES = "a lease outlives its open"
    UNKNOWN = "something else"


class Held(NamedTuple):
    """A lease by its last grant, and what its client may cache by it."""

    grant: Grant
    state: int


class Causes(Talk):
    """A capture with leases that clash."""

    def of(self, file: FileFinding) -> set[Cause]:
        """Why the leases that are named of an unsafe file clash, by each pair that does; empty where none does."""
        held = [*(self._held(it, file.packet) for it in file.leases), *self._closed_by(file.packet)]
        pairs = [(one.grant, other.grant) for one, other in permutations(held, 2)
                 if self.client(one.grant) != self.client(other.grant) and one.state & W and other.state & (R | W)]
        return {self._of_two(one, other) for one, other in pairs}

    def granted(self, lease: LeaseFinding) -> Grant:
        """The grant that a finding names; it is an error where the packet has none of that client, key and state."""
        assert lease.granted
        packet, guid, key = lease.granted.packet, _bytes(lease.guid or ""), _bytes(lease.key)
        return next(it for it in self.grants if it.said.packet == packet and self.client(it) == guid and it.key == key
                    and it.state == _state(lease.state))

    def _held(self, lease: LeaseFinding, until: int | None) -> Held:
        """What it is before the packet at which the file is unsafe: what it was granted, as the breaks since then left it, but
        the last one if it still waits for its acknowledgment."""
        grant, broken = self.granted(lease), lease.broken
        state, last = grant.state, broken.sent.packet if broken and broken.sent else 0
        for one in (it for it in self.breaks_of(grant) if grant.said.packet < it.packet < last):
            state &= one.left
        is_taken = broken and (broken.acknowledged.packet != until if broken.acknowledged else not broken.wants_acknowledgment)
        return Held(grant, state & _state(broken.state) if broken and is_taken else state)

    def _closed_by(self, packet: int | None) -> Iterator[Held]:
        """The leases whose opens are closed by a packet: there they are named no more."""
        closes = [it for it in self.said if it.packet == packet and it.is_request and it.command == Command.CLOSE]
        for close, one in ((close, it) for it in self.grants for close in closes if it.said.file_id == close.file_id):
            before = [it for it in self.grants_of(one) if it.said.packet < close.packet and not it.is_breaking]
            yield from (Held(it, it.state) for it in before[-1:])

    def _of_two(self, writes: Grant, other: Grant) -> Cause:
        """Of a clash that begins where the later of the two leases rises to what it is."""
        later = max(self._rise(writes, W), self._rise(other, R | W), key=lambda it: it.said.line)
        if not later.asked.access & ~OF_ATTRIBUTES:
            return Cause.ATTRIBUTES
        return Cause.OUTLIVES if self._was_had(later) else Cause.UNKNOWN

    def _rise(self, lease: Grant, wanted: int) -> Grant:
        """The grant since which the lease has had one of these states: no break says otherwise, and some open was there."""
        found = lease
        for one in reversed([it for it in self.grants_of(lease) if it.said.line < lease.said.line and not it.is_breaking]):
            is_broken = any(one.said.line < it.line < found.said.line for it in self.breaks_of(lease))
            if not one.state & wanted or is_broken or not self._is_open(lease, found.asked.line):
                break
            found = one
        return found

    def _is_open(self, lease: Grant, line: int) -> bool:
        """Whether any open under its key is there at a line."""
        before = [it for it in self.grants_of(lease) if it.said.line < line]
        return any(not any(end < line for end in self._ends(it)) for it in before)

    def _was_had(self, lease: Grant) -> bool:
        """Whether the same state was granted under the key to opens that have ended, and wasn't broken since."""
        had = [it for it in self.grants_of(lease) if it.said.line < lease.asked.line and it.state & lease.state == lease.state
               and not any(it.said.line < broken.line < lease.said.line for broken in self.breaks_of(lease))]
        return bool(had) and not self._is_open(lease, lease.asked.line)

    def _ends(self, lease: Grant) -> Iterator[int]:
        """The lines at which its open ends, where it does."""
        connection = lease.said.connection
        if connection in self.ends:
            yield self.ends[connection]
        leaves = (Command.LOGOFF, Command.TREE_DISCONNECT)
        closes = [it for it in self.requests_by({lease.said.file_id}, connection) if it.command == Command.CLOSE]
        left = [it for it in self.said if it.is_request and it.connection == connection and it.command in leaves]
        yield from (it.line for it in (*closes, *left))


def _state(text: str) -> int:
    return sum(STATES[it] for it in text) if text != "none" else 0


def _bytes(text: str) -> bytes:
    return bytes.fromhex(text.replace("-", ""))
