"""Opens, as the shell has them, and the manager's clients that they belong to."""
from __future__ import annotations

import struct
from asyncio import TimerHandle
from dataclasses import dataclass, field
from typing import TYPE_CHECKING
from uuid import UUID

from smblease import Access, Context, LeaseState, Share, find_context
from smblease.serve.node import Node

if TYPE_CHECKING:
    from smblease.serve.connection import Connection
    from smblease.serve.sessions import Session, Tree

NO_LEVEL, LEVEL_II, EXCLUSIVE, BATCH, LEASE = 0, 1, 8, 9, 0xFF
OPLOCKS = (LEVEL_II, EXCLUSIVE, BATCH)
# A lease as an answer has it (2.2.14.2.11): its length in version 2, and where its flags and its epoch are; the epoch of a break.
LEASE_CONTEXT, SECOND_LENGTH, FLAGS, EPOCH, NEW_EPOCH = b"RqLs", 52, slice(20, 24), slice(48, 50), slice(2, 4)
BREAKING = 2
# The shell's own FileIds are far from the manager's, which begin at 1.
OWN_FILE_IDS = 1 << 62


@dataclass(frozen=True)
class Lock:
    offset: int
    length: int
    is_exclusive: bool

    def meets(self, offset: int, length: int) -> bool:
        return self.offset < offset + length and offset < self.offset + self.length


class Open:  # pylint: disable=too-many-instance-attributes  # it has the state of every command
    def __init__(self, file_id: int, node: Node, access: int, share: int, session: Session, tree: Tree) -> None:
        self.file_id, self.node, self.access, self.share = file_id, node, access, share
        self.connection: Connection | None = session.connection
        self.session: Session | None = session
        self.tree: Tree | None = tree
        self.owner = session.owner
        self.locks: list[Lock] = []
        # the manager's client, and access and share as it has them; none for what the shell keeps by itself
        self.client: ManagerClient | None = None
        self.rights: tuple[Access, Share] | None = None
        self.key: UUID | None = None
        self.level, self.position = NO_LEVEL, 0
        # `writes_through`: what it writes is on disk before that is answered
        self.is_durable = self.deletes = self.writes_through = False
        # the manager's open may do more than this one; it shares no reading, which the manager wasn't told; a break of its
        # oplock waits for the client's word
        self.is_lent = self.hides_reading = self.is_breaking = False
        # until when it is kept without a connection
        self.timer: TimerHandle | None = None
        # of DH2Q: its CreateGuid, the milliseconds that it is kept, the application that it is of, and its client
        self.create_guid: bytes | None = None
        self.timeout = 0
        self.app_instance: bytes | None = None
        self.client_guid: bytes | None = None
        # what its create did
        self.action = 0
        # the key of the folder's lease, as its client says; whether it has changed what a list of the folder shows
        self.parent_key: UUID | None = None
        self.has_written = False
        # of a folder: the names that are still to be listed
        self.listing: list[str] | None = None

    @property
    def is_connected(self) -> bool:
        return self.connection is not None

    @property
    def lease(self) -> LeaseSeen | None:
        """Its lease, or that by which the manager has its oplock."""
        return self.client.leases.get(self.key) if self.client and self.key else None

    def change_level(self, level: int) -> None:
        self.level = level
        self.node.opens.level_changed(self)

    @property
    def has_oplock(self) -> bool:
        return self.level in OPLOCKS


@dataclass(eq=False)
class LeaseSeen:
    """A lease, as it was granted, broken and acknowledged, and the opens that have it."""

    key: UUID
    node: Node
    state: LeaseState
    is_oplock: bool
    opens: dict[Open, None] = field(default_factory=dict)
    believed: LeaseState = LeaseState.NONE
    # the number of the message by which it is being broken, and what its client was told to keep
    broken_by: int | None = None
    broken_to: LeaseState = LeaseState.NONE
    timer: TimerHandle | None = None
    # the data of RqLs as they were answered last, and of version 2 with the epoch that its client was sent since
    _context: bytes = b""

    def become(self, state: LeaseState) -> None:
        self.state = state
        self.node.opens.lease_changed(self)

    def answered(self, contexts: bytes) -> None:
        """Its client was sent these."""
        found = find_context(contexts, LEASE_CONTEXT)
        self._context = found.data if found else b""

    def told(self, notification: bytes) -> None:
        """Its client was sent this break (2.2.23.2)."""
        if len(self._context) == SECOND_LENGTH:
            self._context = self._context[:EPOCH.start] + notification[NEW_EPOCH] + self._context[EPOCH.stop:]

    @property
    def context(self) -> Context:
        """The lease as it is, for an answer."""
        flags = self._context[FLAGS.start] & ~BREAKING | (0 if self.broken_by is None else BREAKING)
        return Context(LEASE_CONTEXT, self.key.bytes + struct.pack("<LL", self.state.value, flags) + self._context[FLAGS.stop:])


@dataclass(eq=False)
class ManagerClient:
    """A client of the manager: a ClientGuid, or one oplock, or the shell for a moment."""

    number: int
    guid: bytes | None = None
    # a ClientGuid may have several at a time
    connections: list[Connection] = field(default_factory=list)
    open: Open | None = None
    # how many opens it has, connected or not
    opens: int = 0
    leases: dict[UUID, LeaseSeen] = field(default_factory=dict)
    writes: int = 0
    sent: int = 0
    took: int = 0
    # it had several connections, so that it isn't known in which order it takes messages
    has_strayed: bool = False
    # a break timer of it ran out, which the manager remembers until it joins again
    has_expired: bool = False
    # the key of an oplock's lease
    own_key: UUID = UUID(bytes=b"oplock" + bytes(10))

    @property
    def is_connected(self) -> bool:
        return bool(self.connections)

    def next_write(self) -> int:
        self.writes += 1
        return self.writes
