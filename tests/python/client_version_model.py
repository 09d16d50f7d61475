"""What a client adds for leases of version 2, once more and plainly, by MS-SMB2 3.2.5.7.5 and 3.2.5.19.2: of each lease the
newest epoch and state, and of each durable open its CreateGuid. What comes and goes are values, not bytes."""
from __future__ import annotations

from dataclasses import dataclass, field
from typing import Optional

READ, HANDLE, WRITE = 1, 2, 4


@dataclass(frozen=True)
class Granted:
    """The lease of an answer; without an epoch it is of version 1."""

    key: bytes
    state: int
    breaking: bool
    epoch: Optional[int]


def is_newer(epoch: int, known: int) -> bool:
    return 1 <= (epoch - known) % 65536 <= 32767


def is_less(state: int, known: int) -> bool:
    return state != known and state | known == known


@dataclass
class Model:
    """Its three questions are methods of their own, so that a mistake can be put into each."""

    leases: dict[bytes, tuple[int, int]] = field(default_factory=dict)
    guids: dict[int, bytes] = field(default_factory=dict)

    def asked_epoch(self, key: bytes) -> int:
        return self.leases[key][0] if key in self.leases else 0

    def is_taken(self, key: bytes, epoch: int, state: int) -> bool:
        if key not in self.leases:
            return True
        known, before = self.leases[key]
        return is_newer(epoch, known) or (epoch == known and is_less(state, before))

    def is_taken_in_break(self, key: bytes, epoch: int) -> bool:
        return key not in self.leases or is_newer(epoch, self.leases[key][0])

    def answered(self, file_id: int, guid: bytes, lease: Optional[Granted], has_guid: bool, in_order: bool) -> Optional[int]:
        """The state that the machine is given of the lease, where there is one."""
        if has_guid:
            self.guids[file_id] = guid
        if lease is None or lease.epoch is None:
            return lease.state if lease else None
        told = lease.epoch, lease.state
        if in_order:
            self.leases[lease.key] = told
            return lease.state
        if lease.breaking:
            if self.is_taken_in_break(lease.key, lease.epoch):
                self.leases[lease.key] = told
            return lease.state
        if self.is_taken(lease.key, *told):
            self.leases[lease.key] = told
        return self.leases[lease.key][1]

    def noticed(self, key: bytes, epoch: int, state: int, in_order: bool) -> bool:
        """Whether the machine is given the notification."""
        if key not in self.leases and epoch == 0:
            return True
        if not in_order and not self.is_taken(key, epoch, state):
            return False
        self.leases[key] = epoch, state
        return True

    def closed(self, file_id: int) -> None:
        self.guids.pop(file_id, None)
