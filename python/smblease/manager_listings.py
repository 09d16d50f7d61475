"""What a manager of leases lists of itself: opens, leases, and requests and changes that wait. Nothing changes by that."""
from __future__ import annotations

import ctypes
import enum
import uuid
from dataclasses import dataclass
from typing import Any, Callable, List, NamedTuple, Optional, Tuple, Type, TypeVar

from smblease import _structs as structs
from smblease._arguments import key_of
from smblease._handles import Handle, Outcome
from smblease._library import library
from smblease.contexts import CreateAsk
from smblease.values import Access, Extent, LeaseState, Share

Listed = TypeVar("Listed", bound=ctypes.Structure)


@dataclass(frozen=True)
class ListedOpen:
    """An open. One that isn't connected waits for its client.

    >>> ListedOpen(1, 2, 3, None, Access.READ, Share.READ, durable=False, connected=True).file
    3
    """

    file_id: int
    client: int
    file: int
    key: Optional[uuid.UUID]
    access: Access
    share: Share
    durable: bool
    connected: bool


@dataclass(frozen=True)
class ListedLease:
    """A lease: whose it is, on which file, what it holds, while a break waits for its acknowledgment what it is broken to, and
    how many opens it has.

    >>> ListedLease(1, uuid.UUID(int=1), 5, LeaseState.of("RH"), None, 1).opens
    1
    """

    client: int
    key: uuid.UUID
    file: int
    state: LeaseState
    broken_to: Optional[LeaseState]
    opens: int


class WaitingKind(enum.Enum):
    """What a request that waits is.

    >>> WaitingKind(1)
    <WaitingKind.CREATE: 1>
    """

    CREATE = 1
    READ = 2
    WRITE = 3
    CLOSE = 4


@dataclass(frozen=True)
class ListedRequest:
    """A request that waits: on which file, of which client, under which tag. A create has its access, its share and what it asks
    for, and any other the FileId that it is by.

    >>> ListedRequest(5, 1, 10, WaitingKind.READ, file_id=7).ask is None
    True
    """

    file: int
    client: int
    tag: int
    kind: WaitingKind
    file_id: Optional[int] = None
    access: Optional[Access] = None
    share: Optional[Share] = None
    ask: Optional[CreateAsk] = None


class Change(NamedTuple):
    """A change that waits: of which file, of which client, under which tag, and what keys other than this one of the client's are
    to give up, where there is one.

    >>> Change(5, 1, 10, None, Extent.ALL).file
    5
    """

    file: int
    client: int
    tag: int
    key: Optional[uuid.UUID]
    extent: Extent


def _open(has: Any) -> ListedOpen:
    key = key_of(has.key) if has.has_key else None
    return ListedOpen(int(has.file_id), int(has.client), int(has.file), key, Access(has.access), Share(has.share),
                      bool(has.durable), bool(has.connected))


def _lease(has: Any) -> ListedLease:
    broken_to = LeaseState(has.broken_to) if has.breaking else None
    return ListedLease(int(has.client), key_of(has.key), int(has.file), LeaseState(has.state), broken_to, int(has.opens))


def _request(has: Any) -> ListedRequest:
    where, kind = (int(has.file), int(has.client), int(has.tag)), WaitingKind(has.kind)
    if kind is not WaitingKind.CREATE:
        return ListedRequest(*where, kind, file_id=int(has.file_id))
    ask = CreateAsk(key_of(has.key) if has.has_lease else None, LeaseState(has.state), bool(has.durable),
                    int(has.file_id) if has.has_reconnect else None)
    return ListedRequest(*where, kind, access=Access(has.access), share=Share(has.share), ask=ask)


def _change(has: Any) -> Change:
    key = key_of(has.key) if has.has_key else None
    return Change(int(has.file), int(has.client), int(has.tag), key, Extent(has.extent))


class ManagerListings(Handle[structs.Manager]):
    """The lists that a Manager gives. Where there is no memory for one, MemoryError is raised.

    >>> from smblease import Manager
    >>> issubclass(Manager, ManagerListings)
    True
    """

    def opens(self) -> Tuple[ListedOpen, ...]:
        """All opens, in the order of their FileIds.

        >>> from smblease import Manager, Rules
        >>> Manager(Rules.of("by-key,whole")).opens()
        ()
        """
        return tuple(map(_open, self._listed(library.smblease_manager_list_opens, library.smblease_manager_listed_at,
                                             structs.ListedOpen)))

    def leases(self) -> Tuple[ListedLease, ...]:
        """All leases, in order of their clients' numbers, then of their keys' bytes.

        >>> from smblease import Manager, Rules
        >>> Manager(Rules.of("by-key,whole")).leases()
        ()
        """
        return tuple(map(_lease, self._listed(library.smblease_manager_list_leases, library.smblease_manager_listed_lease_at,
                                              structs.ListedLease)))

    def requests(self) -> Tuple[ListedRequest, ...]:
        """All requests that wait, in order of their files' numbers, and on each file in order of arrival.

        >>> from smblease import Manager, Rules
        >>> Manager(Rules.of("by-key,whole")).requests()
        ()
        """
        return tuple(map(_request, self._listed(library.smblease_manager_list_requests,
                                                library.smblease_manager_listed_request_at, structs.ListedRequest)))

    def changes(self) -> Tuple[Change, ...]:
        """All changes that wait, in order of arrival.

        >>> from smblease import Manager, Rules
        >>> Manager(Rules.of("by-key,whole")).changes()
        ()
        """
        with self._lock:
            self._check_open()
            return tuple(map(_change, self._each(library.smblease_manager_change_at, structs.Change)))

    def export(self) -> bytes:
        """What a host keeps over a restart of its own: the opens that would be there were each client cut now, with their leases,
        and the FileId given last. `Manager(rules, kept=...)` makes a manager of it, where each of them waits for its client.

        >>> from smblease import Manager, Rules
        >>> Manager(Rules.of("by-key,whole")).export()[:8]
        b'SMBKEPT1'
        """
        handle, length = ctypes.byref(self._handle), ctypes.c_size_t()
        with self._lock:
            self._check(library.smblease_manager_export(handle, ctypes.byref(length), None, 0))
            room = ctypes.create_string_buffer(length.value)
            self._check(library.smblease_manager_export(handle, ctypes.byref(length), room, length.value))
        return room.raw

    def _listed(self, collect: Callable[..., int], at: Callable[..., int], kind: Type[Listed]) -> List[Listed]:
        with self._lock:
            self._check(collect(ctypes.byref(self._handle)))
            return self._each(at, kind)

    def _each(self, at: Callable[..., int], kind: Type[Listed]) -> List[Listed]:
        """What is read by index, while the lock is held."""
        handle = ctypes.byref(self._handle)
        found: List[Listed] = []
        one = kind()
        while at(handle, len(found), ctypes.byref(one)) == Outcome.DONE:
            found.append(one)
            one = kind()
        return found
