"""The values of the plain manager, and the rules of docs/PROFILE.md that look at values alone."""
from __future__ import annotations

import uuid
from dataclasses import dataclass
from enum import Enum
from typing import NamedTuple, Optional, Union

from smblease import Access, CreateAsk, LeaseState, Share

# A state is the number of its bits.
R, H, W = 1, 2, 4
NONE, ALL = 0, 7
STATES = tuple(map(LeaseState, range(8)))
# A client and its LeaseKey.
Key = tuple[int, uuid.UUID]


@dataclass
class Open:
    file_id: int
    client: int
    file: int
    lease_key: Optional[uuid.UUID]
    access: Access
    share: Share
    durable: bool
    connected: bool = True

    @property
    def key(self) -> Optional[Key]:
        return None if self.lease_key is None else (self.client, self.lease_key)


@dataclass
class Lease:
    """A lease; while it is breaking, what it is broken to and the number of the break's timer."""

    state: int = NONE
    broken_to: Optional[int] = None
    timer: Optional[int] = None


class Want(NamedTuple):
    """A lease of another key, and the state that it has to be lowered to."""

    key: Key
    lowered: int


# ---- requests


@dataclass(frozen=True)
class Create:
    client: int
    tag: int
    file: int
    access: Access
    share: Share
    ask: CreateAsk

    @property
    def key(self) -> Optional[Key]:
        return None if self.ask.key is None else (self.client, self.ask.key)


@dataclass(frozen=True)
class ByOpen:
    """A request by the FileId of an open."""

    client: int
    tag: int
    file_id: int


@dataclass(frozen=True)
class Read(ByOpen):
    pass


@dataclass(frozen=True)
class Write(ByOpen):
    fits: bool


@dataclass(frozen=True)
class Close(ByOpen):
    pass


Request = Union[Create, Read, Write, Close]


@dataclass(frozen=True)
class Held:
    """A request with what it stood under when it came: a lease key, the FileId of an open without one, or neither."""

    request: Request
    lane: Union[uuid.UUID, int, None]


class Outcome(Enum):
    """How a try ends, unless it is refused."""

    WAITS = 0
    READY = 1


# ---- rules


def granted_form(state: int) -> int:
    return state if state & R else NONE


def needs_acknowledgment(state: int) -> bool:
    return state not in (NONE, R)


def is_within(state: int, other: int) -> bool:
    return not state & ~other


def reads(access: Access) -> bool:
    return access in (Access.READ, Access.READ_WRITE)


def writes(access: Access) -> bool:
    return access in (Access.WRITE, Access.READ_WRITE)


def is_shared(access: Access, share: Share) -> bool:
    """Whether a share lets others do what an access does."""
    lets_read, lets_write = share in (Share.READ, Share.READ_WRITE), share in (Share.WRITE, Share.READ_WRITE)
    return (lets_read or not reads(access)) and (lets_write or not writes(access))


def in_break_order(key: Key) -> tuple[int, bytes]:
    """Breaks go out in the order of clients, then of the bytes of keys."""
    client, lease_key = key
    return client, lease_key.bytes
