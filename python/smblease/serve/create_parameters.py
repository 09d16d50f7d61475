"""What a CREATE asks for (2.2.13), and what of it goes to the manager."""
from __future__ import annotations

import itertools
import struct
from dataclasses import dataclass, replace
from uuid import UUID

from smblease import Access, Context, CreateAsk, Fault, LeaseState, Share, Status, append_context, each_context
from smblease.contexts import NO_ASK
from smblease.drive.headers import HEADER, Unreadable
from smblease.serve.access import COUNTING, DELETE, READING, SHARE_DELETE, reads, specific, writes
from smblease.serve.asks import NOTHING_WANTED, Wanted
from smblease.serve.kept_attributes import ARCHIVE
from smblease.serve.names import path_on_wire
from smblease.serve.opens import BATCH, EXCLUSIVE, LEASE, LEASE_CONTEXT, LEVEL_II, NO_LEVEL, SECOND_LENGTH
from smblease.serve.opens_of_file import OpensOfFile
from smblease.serve.packets import RequestMessage
from smblease.serve.status_error import StatusError

# Level and impersonation, access, attributes, share, disposition and options, and where name and contexts are (2.2.13).
FIXED = struct.Struct("<3xBL16xLLLLLHHLL")
SUPERSEDE, OPEN, CREATE, OPEN_IF, OVERWRITE, OVERWRITE_IF = range(6)
MAKING = {SUPERSEDE, CREATE, OPEN_IF, OVERWRITE_IF}
EMPTYING = {SUPERSEDE, OVERWRITE, OVERWRITE_IF}
DIRECTORY_FILE, WRITE_THROUGH, NON_DIRECTORY_FILE, DELETE_ON_CLOSE = 0x1, 0x2, 0x40, 0x1000
SUPERSEDED, OPENED, CREATED, OVERWRITTEN = range(4)
MOST_CONTEXTS = 32
MOST_ACCESS, ON_DISK, ALLOCATION = b"MxAc", b"QFid", b"AlSi"
# A client that knows durable handles of version 2 may send only that when it connects one of version 1 again.
RECONNECT_2 = b"DH2C"
DURABLE_2 = b"DH2Q"
DURABLES = (b"DHnQ", b"DHnC", DURABLE_2, RECONNECT_2)
# SMB2_CREATE_APP_INSTANCE_ID, its length, and where it has the AppInstanceId (2.2.13.2.13)
APP_INSTANCE, APP_INSTANCE_LENGTH, APP_INSTANCE_ID = bytes.fromhex("45bca66aefa7f74a9008fa462e144d74"), 20, slice(4, 20)
# Where a lease of version 2 has its flags and its ParentLeaseKey (2.2.13.2.10), and DH2Q its CreateGuid (2.2.13.2.11).
FLAGS, PARENT, PARENT_SET, CREATE_GUID = 20, slice(32, 48), 4, slice(16, 32)
RWH = LeaseState.of("RWH")
# Access and share as the manager has them, by their numbers. An open that neither reads nor writes reads.
ACCESSES, SHARES = (Access.READ, *Access), tuple(Share)
OPLOCK_STATES = {NO_LEVEL: LeaseState.NONE, LEVEL_II: LeaseState.R, EXCLUSIVE: LeaseState.of("RW"), BATCH: RWH}


@dataclass(eq=False)
class CreateParameters:
    path: str
    access: int
    share: int
    disposition: int
    options: int
    attributes: int
    level: int
    impersonation: int
    ask: CreateAsk
    # all contexts as they came, and by their names
    text: bytes
    others: dict[bytes, bytes]
    # whether the file is empty after it
    empties: bool
    # whether version 2 is heeded, and the milliseconds that an open of DH2Q lasts without its connection
    is_of_3: bool = False
    timeout: int = 0

    @property
    def key(self) -> UUID | None:
        return self.ask.key if self.level == LEASE or self.ask.reconnect is not None else None

    @property
    def create_guid(self) -> bytes | None:
        """That of DH2Q."""
        return self.others[DURABLE_2][CREATE_GUID] if self.is_of_3 and DURABLE_2 in self.others else None

    @property
    def has_second_lease(self) -> bool:
        """Whether it asks for a lease of version 2."""
        return self.is_of_3 and self.level == LEASE and len(self.others.get(LEASE_CONTEXT, b"")) == SECOND_LENGTH

    @property
    def lease_named(self) -> CreateAsk:
        """The lease that it names, of either version, whether the manager is to be asked for it or not."""
        lease = self.others.get(LEASE_CONTEXT, b"") if self.level == LEASE else b""
        return CreateAsk(UUID(bytes=lease[:16]), LeaseState(lease[16] & RWH.value)) if lease else NO_ASK

    @property
    def parent_key(self) -> UUID | None:
        """The key of the folder's lease, as its client says."""
        lease = self.others.get(LEASE_CONTEXT, b"")
        return UUID(bytes=lease[PARENT]) if self.has_second_lease and lease[FLAGS] & PARENT_SET else None

    @property
    def app_instance(self) -> bytes | None:
        """The application that an open of DH2Q is of."""
        found = self.others.get(APP_INSTANCE, b"")
        return found[APP_INSTANCE_ID] if self.create_guid and len(found) == APP_INSTANCE_LENGTH else None

    @property
    def allocation(self) -> int:
        return int.from_bytes(self.others.get(ALLOCATION, b"")[:8], "little")

    def kept_attributes(self, is_folder: bool) -> int:
        """Those of what it makes or overwrites; a file has "archive" then."""
        return self.attributes if is_folder else self.attributes | ARCHIVE

    @property
    def rights(self) -> tuple[Access, Share]:
        return self.rights_beside(False)

    def rights_beside(self, hides_reading: bool) -> tuple[Access, Share]:
        """Access and share as the manager has them. Who empties a file writes it; who holds a lease alone reads."""
        access = reads(self.access) + 2 * (writes(self.access) or self.empties)
        return ACCESSES[access], SHARES[self.share & 3 | hides_reading] if access else Share.READ_WRITE

    def asking(self, ask: CreateAsk) -> Wanted:
        """What the manager is asked for, in the versions that its client asks with."""
        if ask is NO_ASK:
            return NOTHING_WANTED
        if not self.is_of_3:
            return Wanted(ask, ask.write())
        names = [LEASE_CONTEXT] if ask.key is not None and ask.key == self.ask.key else []
        names += DURABLES if ask.durable or ask.reconnect is not None else []
        text = b""
        for name in [it for it in names if it in self.others]:
            text = append_context(text, Context(name, self.others[name]))
        return Wanted(ask, text, self.timeout)

    def lease_ask(self, has_oplock: bool) -> CreateAsk:
        """What is asked for as it came, but for a lease that the level doesn't ask for; and for handles, where another open has
        an oplock."""
        if self.ask is NO_ASK:
            return NO_ASK
        if self.level != LEASE and self.ask.key is not None:
            return CreateAsk(durable=self.ask.durable, reconnect=self.ask.reconnect)
        if has_oplock and LeaseState.H in self.ask.state:
            return replace(self.ask, state=self.ask.state & ~LeaseState.H)
        return self.ask


def read_parameters(message: RequestMessage) -> CreateParameters:
    if len(message.data) < HEADER + FIXED.size:
        raise Unreadable
    (level, impersonation, access, attributes, share, disposition, options, name, name_length, place, length
     ) = FIXED.unpack_from(message.data, HEADER)
    text = message.part(place, length) if length else b""
    ask, others = _contexts(text) if length else (NO_ASK, {})
    path = path_on_wire(message.part(name, name_length)) if name_length else ""
    return CreateParameters(path, specific(access), share, disposition, options, attributes, level, impersonation, ask, text,
                            others, disposition in EMPTYING)


def _contexts(text: bytes) -> tuple[CreateAsk, dict[bytes, bytes]]:
    try:
        contexts = list(itertools.islice(each_context(text), MOST_CONTEXTS + 1))
        if len(contexts) > MOST_CONTEXTS:
            raise StatusError(Status.INVALID_PARAMETER)
        ask, others = CreateAsk.read(text), {it.name: it.data for it in contexts}
    except Fault as fault:
        raise StatusError(Status(fault.status)) from None
    again = others.get(RECONNECT_2, b"")
    if ask.reconnect is None and len(again) == 36:
        ask = replace(ask, reconnect=int.from_bytes(again[:8], "little"))
    return ask, others


def check(wanted: CreateParameters, limit: int) -> None:
    """What a create that reconnects isn't asked for."""
    if wanted.impersonation > 3 or wanted.disposition > OVERWRITE_IF or wanted.share > 7:
        raise StatusError(Status.INVALID_PARAMETER)
    if ALLOCATION in wanted.others and wanted.allocation > limit:
        raise StatusError(Status.INVALID_PARAMETER)
    if not wanted.access or wanted.options & DELETE_ON_CLOSE and not wanted.access & DELETE:
        raise StatusError(Status.ACCESS_DENIED)


def conflicts(wanted: CreateParameters, others: OpensOfFile) -> bool:
    """Whether one deletes and another doesn't share that; what is read and written is shared by the manager's rules, unless the
    manager wasn't told of it."""
    access = wanted.access
    if not access & COUNTING:
        return False
    return bool(others.hiding and access & READING or others.without_deletion and access & DELETE
                or others.deleting and not wanted.share & SHARE_DELETE)


def oplock_state(level: int) -> LeaseState:
    """The lease that an oplock of this level is."""
    return OPLOCK_STATES.get(level, RWH)


def level_of(wanted: int, state: LeaseState) -> int:
    """The level of an oplock whose lease has this state."""
    if oplock_state(wanted) is state:
        return wanted
    return LEVEL_II if LeaseState.R in state else NO_LEVEL
