"""The opens of one file, and what is asked of all of them together, which costs no more where they are many."""
from __future__ import annotations

from collections.abc import Iterator
from typing import TYPE_CHECKING

from smblease import LeaseState
from smblease.serve.access import COUNTING, DELETE, OF_ATTRIBUTES, READING, SHARE_DELETE, SHARE_READ

if TYPE_CHECKING:
    from smblease.serve.opens import LeaseSeen, Open


class OpensOfFile:  # pylint: disable=too-many-instance-attributes  # it counts opens by what they do
    """How many open it to delete, don't share deletion, don't share reading, and of these how many unknown to the manager; and of
    those that the manager has, how many look at attributes alone, and how many read."""

    def __init__(self) -> None:
        self._opens: dict[Open, None] = {}
        self.deleting = self.without_deletion = self.without_reading = self.hiding = self.looking = self.reading = 0
        # oplocks of any level, by their opens
        self.oplocks: set[Open] = set()
        # leases, those by which the manager has oplocks too, and by what they hold; an oplock's handles don't count
        self.leases: set[LeaseSeen] = set()
        self.with_handles: set[LeaseSeen] = set()
        self.with_writes: set[LeaseSeen] = set()
        self.with_locks: dict[Open, None] = {}

    def __iter__(self) -> Iterator[Open]:
        return iter(self._opens)

    def __len__(self) -> int:
        return len(self._opens)

    def add(self, opened: Open) -> None:
        """Once the manager's client of it is known."""
        self._opens[opened] = None
        self._count(opened, 1)
        if opened.level:
            self.level_changed(opened)

    def remove(self, opened: Open) -> None:
        del self._opens[opened]
        self._count(opened, -1)
        if opened in self.oplocks:
            self.oplocks.remove(opened)
        if opened in self.with_locks:
            del self.with_locks[opened]

    def _count(self, opened: Open, weight: int) -> None:
        access, share = opened.access, opened.share
        if access & COUNTING:
            if access & DELETE:
                self.deleting += weight
            if not share & SHARE_DELETE:
                self.without_deletion += weight
            if not share & SHARE_READ:
                self.without_reading += weight
            if opened.hides_reading:
                self.hiding += weight
        if opened.client:
            if not access & ~OF_ATTRIBUTES:
                self.looking += weight
            if access & READING:
                self.reading += weight

    def level_changed(self, opened: Open) -> None:
        if opened.has_oplock:
            self.oplocks.add(opened)
        else:
            self.oplocks.discard(opened)

    def lease_changed(self, lease: LeaseSeen) -> None:
        """It is granted, broken, acknowledged or gone."""
        handles, writes = LeaseState.H in lease.state and not lease.is_oplock, LeaseState.W in lease.state
        for those, has in ((self.leases, True), (self.with_handles, handles), (self.with_writes, writes)):
            if has and lease.opens:
                those.add(lease)
            else:
                those.discard(lease)
