"""What comes over a connection, and what it names."""
from __future__ import annotations

from dataclasses import dataclass

NOTIFICATION_ID = 0xFFFFFFFFFFFFFFFF
# A server may stand still for some seconds (smbd does while it retries a lock).
PATIENCE = 25.0


@dataclass(frozen=True)
class FileId:
    persistent: int
    volatile: int


@dataclass(frozen=True)
class Message:
    """What came: `number` is that of the request, or NOTIFICATION_ID."""

    number: int
    status: int
    data: bytes
