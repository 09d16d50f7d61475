"""What a client adds to its machine for leases and durable opens of version 2 (MS-SMB2, dialects 3.0 to 3.1.1): epochs,
ParentLeaseKeys and CreateGuids, of which the machine, which speaks version 1, knows nothing.

Its host passes each create that the machine asks for, each answer to one and each notification of a break through it:
include/smblease_client_versions.h says how.
"""
from __future__ import annotations

import ctypes
import uuid
from typing import Optional

from smblease import _structs as structs
from smblease._arguments import LONG, Octets, key_octets, number, octets
from smblease._handles import Handle, Outcome
from smblease._library import library
from smblease.manager_questions import maybe_key_struct
from smblease.messages import NOTIFICATION_SIZE

UNREADABLE = "what came can't be read"


class ClientVersions(Handle[structs.ClientVersions]):
    """Knows nothing at first. It lives as long as a client's machine does, over all connections.

    Messages come in any order, as over several connections. With `in_order` a message is said to have come over the client's
    only connection, after all that was sent before it: then it is passed on as it was sent, whatever its epoch is. Where
    MemoryError is raised nothing has changed, and the call may be made again.

    >>> from smblease import Context, Notification, LeaseState, append_context, find_context
    >>> asked = append_context(b"", Context(b"RqLs", bytes(range(16)) + bytes([7]) + bytes(15)))
    >>> with ClientVersions() as versions:
    ...     sent = versions.ask(asked, uuid.uuid4())
    ...     granted = append_context(b"", Context(b"RqLs", bytes(range(16)) + bytes([7]) + bytes(31) + bytes([5, 0, 0, 0])))
    ...     taken = versions.answered(1, uuid.uuid4(), granted)
    ...     again = versions.ask(asked, uuid.uuid4())
    ...     late = Notification(uuid.UUID(bytes=bytes(range(16))), LeaseState(7), LeaseState(3), True).write()
    ...     dropped = versions.noticed(late[:2] + bytes([4, 0]) + late[4:])
    >>> len(sent), find_context(again, b"RqLs").data[48], len(taken), dropped is None
    (76, 5, 56, True)
    """

    def __init__(self) -> None:
        super().__init__(structs.ClientVersions(), library.smblease_client_versions_free, "client versions")
        self._reference = ctypes.byref(self._handle)
        if library.smblease_client_versions_new(self._reference) != Outcome.DONE:
            raise MemoryError("there is no memory for client versions")

    def ask(self, contexts: Octets, guid: uuid.UUID, parent: Optional[uuid.UUID] = None) -> bytes:
        """The create contexts that are sent for those of the machine's request (2.2.13.2). `guid` is a new one, the CreateGuid of
        a durable open; `parent` is the key of the lease of the file's folder. Contexts that aren't those of version 1 raise
        ValueError.

        >>> ClientVersions().ask(b"", uuid.uuid4())
        b''
        """
        text, out = octets(contexts), structs.VersionsMessage()
        names = structs.Guid.from_buffer_copy(key_octets(guid)), maybe_key_struct(parent)
        with self._lock:
            self._come(library.smblease_client_versions_ask(self._reference, *names, text, len(text), ctypes.byref(out)))
        return bytes(out.bytes[:out.length])

    def answered(self, file_id: int, guid: uuid.UUID, contexts: Octets, in_order: bool = False) -> bytes:
        """The create contexts that the machine takes for those of an answer (2.2.14.2), to the create of this `guid`; its open
        has this FileId. Contexts that can't be read raise ValueError.

        >>> ClientVersions().answered(1, uuid.uuid4(), b"")
        b''
        """
        text, out = octets(contexts), structs.VersionsMessage()
        name = number(file_id, LONG, "file_id"), structs.Guid.from_buffer_copy(key_octets(guid))
        with self._lock:
            self._come(library.smblease_client_versions_answered(self._reference, bool(in_order), *name, text, len(text),
                                                                 ctypes.byref(out)))
        return bytes(out.bytes[:out.length])

    def noticed(self, notification: Octets, in_order: bool = False) -> Optional[bytes]:
        """The notification that the machine takes for this one (2.2.23.2), without its header; none where it is late, and then it
        isn't acknowledged either. What isn't a notification raises ValueError.

        >>> ClientVersions().noticed(b"")
        Traceback (most recent call last):
        ValueError: what came can't be read
        """
        text, out = octets(notification)[:NOTIFICATION_SIZE], structs.VersionsMessage()
        if len(text) < NOTIFICATION_SIZE:
            raise ValueError(UNREADABLE)
        message = structs.BreakMessage.from_buffer_copy(text)
        with self._lock:
            self._come(library.smblease_client_versions_noticed(self._reference, bool(in_order), message, ctypes.byref(out)))
        return bytes(out.bytes[:out.length]) or None

    def forget(self, file_id: int) -> None:
        """The open of this FileId is closed, or the machine has given it up: its CreateGuid is forgotten.

        >>> ClientVersions().forget(1)
        """
        with self._lock:
            self._check(library.smblease_client_versions_closed(self._reference, number(file_id, LONG, "file_id")))

    def _come(self, outcome: int) -> None:
        if outcome == Outcome.DAMAGED:
            raise ValueError(UNREADABLE)
        self._check(outcome)
