"""What a request is refused with."""
from __future__ import annotations

from smblease import Status

# What a request ends with that needs more memory, or a deeper stack, than there is.
EXHAUSTED = (MemoryError, RecursionError)
STATUSES = frozenset(map(int, Status))


def name_of(status: int) -> str:
    """Its name in MS-ERREF, where it is one that has a name here."""
    return Status(status).name if status in STATUSES else f"{status:#010x}"


class StatusError(Exception):
    """A request is answered this status."""

    def __init__(self, status: int) -> None:
        super().__init__(name_of(status))
        self.status = status


class RefusedByManager(StatusError):
    """The manager refused what was asked of it in a client's name."""
