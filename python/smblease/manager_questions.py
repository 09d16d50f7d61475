"""What a manager of leases may be asked, and what it knows of a lease. Nothing changes by that."""
from __future__ import annotations

import ctypes
import uuid
from dataclasses import dataclass
from typing import Callable, Optional

from smblease import _structs as structs
from smblease._arguments import LONG, key_field, key_octets, number
from smblease._handles import Handle, Outcome
from smblease._library import library
from smblease.values import Extent, LeaseState


@dataclass(frozen=True)
class HeldLease:
    """A lease: what it holds and, while a break waits for its acknowledgment, what it is broken to.

    >>> HeldLease(LeaseState.of("RWH")).broken_to is None
    True
    """

    state: LeaseState
    broken_to: Optional[LeaseState] = None


def key_struct(key: uuid.UUID) -> structs.Key:
    """A key that a call is given.

    >>> bytes(key_struct(uuid.UUID(int=1)))[-1]
    1
    """
    return structs.Key.from_buffer_copy(key_octets(key))


def maybe_key_struct(key: Optional[uuid.UUID]) -> structs.MaybeKey:
    """A key that a call is given, or that it isn't.

    >>> maybe_key_struct(None).has_key
    0
    """
    return structs.MaybeKey() if key is None else structs.MaybeKey(key_field(key), 1)


class ManagerQuestions(Handle[structs.Manager]):
    """The questions that a Manager answers.

    >>> from smblease import Manager
    >>> issubclass(Manager, ManagerQuestions)
    True
    """

    def _asked(self, call: Callable[..., int], *arguments: object) -> int:
        with self._lock:
            self._check_open()
            return int(call(ctypes.byref(self._handle), *arguments))

    def connected(self, client: int) -> bool:
        """Whether a client is connected.

        >>> from smblease import Manager, Rules
        >>> Manager(Rules.of("by-key,whole")).connected(1)
        False
        """
        return bool(self._asked(library.smblease_manager_connected, number(client, LONG, "client")))

    def breaking(self, client: int, key: uuid.UUID) -> bool:
        """Whether a break of a client's lease waits for its acknowledgment.

        >>> from smblease import Manager, Rules
        >>> Manager(Rules.of("by-key,whole")).breaking(1, uuid.UUID(int=1))
        False
        """
        return bool(self._asked(library.smblease_manager_breaking, number(client, LONG, "client"), ctypes.byref(key_struct(key))))

    def waiting(self, client: int, tag: int, file: int) -> bool:
        """Whether a request or a change of a client under the tag waits on the file.

        >>> from smblease import Manager, Rules
        >>> Manager(Rules.of("by-key,whole")).waiting(1, 10, 5)
        False
        """
        return bool(self._asked(library.smblease_manager_waiting, number(client, LONG, "client"), number(tag, LONG, "tag"),
                                number(file, LONG, "file")))

    def left_behind(self, file_id: int) -> bool:
        """Whether an open waits for its client to connect again.

        >>> from smblease import Manager, Rules
        >>> Manager(Rules.of("by-key,whole")).left_behind(1)
        False
        """
        return bool(self._asked(library.smblease_manager_left_behind, number(file_id, LONG, "file_id")))

    def has_open(self, file_id: int) -> bool:
        """Whether there is an open of this FileId, connected or not.

        >>> from smblease import Manager, Rules
        >>> Manager(Rules.of("by-key,whole")).has_open(1)
        False
        """
        return bool(self._asked(library.smblease_manager_has_open, number(file_id, LONG, "file_id")))

    def may_read(self, client: int, file_id: int) -> bool:
        """Whether a read by a client's open would be done at once: its host may do it then, before any other call, without one.

        >>> from smblease import Manager, Rules
        >>> Manager(Rules.of("by-key,whole")).may_read(1, 1)
        False
        """
        return bool(self._asked(library.smblease_manager_may_read, number(client, LONG, "client"),
                                number(file_id, LONG, "file_id")))

    def may_write(self, client: int, file_id: int) -> bool:
        """Whether a write that fits, by a client's open, would be done at once and break nothing: as may_read.

        >>> from smblease import Manager, Rules
        >>> Manager(Rules.of("by-key,whole")).may_write(1, 1)
        False
        """
        return bool(self._asked(library.smblease_manager_may_write, number(client, LONG, "client"),
                                number(file_id, LONG, "file_id")))

    def given_up(self, client: int, key: Optional[uuid.UUID], file: int, extent: Extent) -> bool:
        """Whether no key on the file but this one of the client's is in the way: none holds handles (HANDLES); none caches
        writes, or caches anything without being broken to nothing (ALL).

        >>> from smblease import Manager, Rules
        >>> Manager(Rules.of("by-key,whole")).given_up(1, None, 5, Extent.ALL)
        True
        """
        return bool(self._asked(library.smblease_manager_given_up, number(client, LONG, "client"),
                                ctypes.byref(maybe_key_struct(key)), number(file, LONG, "file"), Extent(extent).value))

    def open_count(self) -> int:
        """How many opens there are, those that wait for their clients too.

        >>> from smblease import Manager, Rules
        >>> Manager(Rules.of("by-key,whole")).open_count()
        0
        """
        return self._asked(library.smblease_manager_open_count)

    def allowed(self, client: int, key: Optional[uuid.UUID], file: int, want: LeaseState) -> LeaseState:
        """What may be granted to a client of the state that it wants. Whether the key is expired isn't looked at.

        >>> from smblease import Manager, Rules
        >>> str(Manager(Rules.of("by-key,whole")).allowed(1, None, 5, LeaseState.of("RWH")))
        'RWH'
        """
        return LeaseState(self._asked(library.smblease_manager_allowed, number(client, LONG, "client"),
                                      ctypes.byref(maybe_key_struct(key)), number(file, LONG, "file"), LeaseState(want).value))

    def kept(self, client: int, file: int) -> Optional[int]:
        """The FileId of a client's oldest durable open on a file that waits for it, or None where there is none.

        >>> from smblease import Manager, Rules
        >>> Manager(Rules.of("by-key,whole")).kept(1, 5) is None
        True
        """
        found = ctypes.c_uint64()
        outcome = self._asked(library.smblease_manager_kept, number(client, LONG, "client"), number(file, LONG, "file"),
                              ctypes.byref(found))
        return found.value if outcome == Outcome.DONE else None

    def lease(self, client: int, key: uuid.UUID) -> HeldLease:
        """The lease of a client's key; that of a key that no open has holds nothing.

        >>> from smblease import Manager, Rules
        >>> Manager(Rules.of("by-key,whole")).lease(1, uuid.UUID(int=1))
        HeldLease(state=<LeaseState none>, broken_to=None)
        """
        found = structs.HeldLease()
        self._asked(library.smblease_manager_lease, number(client, LONG, "client"), ctypes.byref(key_struct(key)),
                    ctypes.byref(found))
        return HeldLease(LeaseState(found.state), LeaseState(found.broken_to) if found.breaking else None)
