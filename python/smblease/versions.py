"""What leases and durable opens of version 2 carry (MS-SMB2, dialects 3.0 to 3.1.1), over a manager, which knows nothing of it:
epochs, ParentLeaseKeys and CreateGuids.

Its host gives it the create contexts of each CREATE before it asks the manager, and has it follow each decision of each call;
it gives the bytes that are sent: include/smblease_versions.h leads through a break.
"""
from __future__ import annotations

import ctypes
from dataclasses import dataclass
from typing import Optional, Sequence

from smblease import _structs as structs
from smblease._arguments import LONG, WORD, Octets, longs, number, octets
from smblease._handles import Handle, Outcome
from smblease._library import library
from smblease.contexts import CreateAsk, ask_of
from smblease.manager import Manager
from smblease.values import Status


@dataclass(frozen=True)
class VersionsAsk:
    """What becomes of a create by its contexts: the manager is to be asked for `ask`; or it is refused with an NTSTATUS; or it is
    the replay of a create that made the open of this FileId, which is answered again.

    >>> VersionsAsk(status=0xC000022A).again is None
    True
    """

    ask: Optional[CreateAsk] = None
    status: Optional[int] = None
    again: Optional[int] = None


class Versions(Handle[structs.Versions]):
    """Knows of no lease and no open, as a manager that is new.

    Where MemoryError is raised nothing has changed, and the call may be made again.

    >>> from smblease import Access, Context, Rules, Share, append_context
    >>> lease = bytes(range(16)) + bytes([7]) + bytes(31) + bytes([4, 0, 0, 0])
    >>> contexts = append_context(b"", Context(b"RqLs", lease))
    >>> with Manager(Rules.of("by-key,whole")) as manager, Versions(manager) as versions:
    ...     for client in (1, 2):
    ...         manager.join(client)
    ...     asked = versions.asked(1, 10, contexts)
    ...     [opened] = manager.create(1, 10, 5, Access.READ, Share.READ_WRITE, asked.ask)
    ...     answer = versions.follow(0)
    ...     breaks, waits = manager.create(2, 20, 5, Access.READ, Share.READ_WRITE)
    ...     notification = versions.follow(0)
    >>> len(answer), answer[72], str(breaks.notification.new), notification[2]
    (76, 5, 'RH', 6)
    """

    def __init__(self, manager: Manager) -> None:
        super().__init__(structs.Versions(), library.smblease_versions_free, "versions")
        self._manager = manager
        self._reference = ctypes.byref(self._handle)
        if library.smblease_versions_new(self._reference) != Outcome.DONE:
            raise MemoryError("there is no memory for versions")

    def asked(self, client: int, tag: int, contexts: Octets, replay: bool = False) -> VersionsAsk:
        """A create of the client comes under the tag with these create contexts (2.2.13.2), of either version; `replay` where
        its header has SMB2_FLAGS_REPLAY_OPERATION. Contexts that can't be read are refused with STATUS_INVALID_PARAMETER.

        >>> from smblease import Rules
        >>> Versions(Manager(Rules.of("by-key,whole"))).asked(1, 10, b"").ask
        CreateAsk(key=None, state=<LeaseState none>, durable=False, reconnect=None, has_other_lease=False)
        """
        text, out = octets(contexts), structs.VersionsAsk()
        names = number(client, LONG, "client"), number(tag, LONG, "tag")
        with self._lock:
            outcome = library.smblease_versions_asked(self._reference, *names, bool(replay), text, len(text), ctypes.byref(out))
        if outcome == Outcome.DAMAGED:
            return VersionsAsk(status=Status.INVALID_PARAMETER)
        self._check(outcome)
        if out.status or out.again:
            return VersionsAsk(status=out.status or None, again=out.again or None)
        return VersionsAsk(ask_of(out.ask))

    def closing(self, client: int, tag: int, file_id: int) -> None:
        """A close of the client's open comes under the tag.

        >>> from smblease import Rules
        >>> Versions(Manager(Rules.of("by-key,whole"))).closing(1, 11, 1)
        """
        names = number(client, LONG, "client"), number(tag, LONG, "tag"), number(file_id, LONG, "file_id")
        with self._lock:
            self._check(library.smblease_versions_closing(self._reference, *names))

    def forget(self, client: int) -> None:
        """The client's connection was cut: what it asked and has no answer is forgotten.

        >>> from smblease import Rules
        >>> Versions(Manager(Rules.of("by-key,whole"))).forget(1)
        """
        with self._lock:
            self._check(library.smblease_versions_forget(self._reference, number(client, LONG, "client")))

    def leave(self, client: int, tags: Sequence[int]) -> None:
        """The client left what it asked under these tags, or the host refused it without asking the manager.

        >>> from smblease import Rules
        >>> Versions(Manager(Rules.of("by-key,whole"))).leave(1, [10, 11])
        """
        given = longs(tags, "tag")
        with self._lock:
            self._check(library.smblease_versions_leave(self._reference, number(client, LONG, "client"), given, len(tags)))

    def follow(self, index: int, timeout: int = 0) -> bytes:
        """Follows the decision at this index of the manager's last call; each is followed once, in their order. Gives the create
        contexts of an answer, in which DH2Q has this timeout in milliseconds, the notification of a break, or no bytes.

        >>> from smblease import Rules
        >>> Versions(Manager(Rules.of("by-key,whole"))).follow(0)
        Traceback (most recent call last):
        ValueError: a number stands for nothing of the versions
        """
        out = structs.VersionsMessage()
        arguments = number(index, LONG, "index"), number(timeout, WORD, "timeout"), ctypes.byref(out)
        # pylint: disable-next=protected-access  # (of a handle, by another one)
        with self._lock, self._manager._used() as manager:
            self._check(library.smblease_versions_follow(self._reference, manager, *arguments))
        return bytes(out.bytes[:out.length])
