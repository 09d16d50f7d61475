"""Lease break messages, without the SMB2 header (MS-SMB2 2.2.23.2, 2.2.24.2, 2.2.25.2).

Keys are UUIDs by their bytes: `key.bytes` is what stands on the wire.
"""
from __future__ import annotations

import ctypes
import enum
import uuid
from dataclasses import dataclass
from typing import Any, ClassVar, Optional, Type, TypeVar

from smblease import _structs as structs
from smblease._arguments import Octets, key_field, key_of, octets
from smblease._library import library, written
from smblease.faults import raise_fault
from smblease.values import LeaseState

NOTIFICATION_SIZE = 44
ACKNOWLEDGMENT_SIZE = 36
RESPONSE_SIZE = 36
Self = TypeVar("Self", bound="_StateMessage")


class MessageKind(enum.Enum):
    """Which message the body of an OPLOCK_BREAK command is. An acknowledgment, which a client sends, and a response, which a
    server sends, have one layout; messages on oplocks aren't read by this package.

    >>> MessageKind.of(bytes([44]) + bytes(43))
    <MessageKind.NOTIFICATION: 1>
    """

    OTHER = 0
    NOTIFICATION = 1
    ACKNOWLEDGMENT_OR_RESPONSE = 2
    OPLOCK_BREAK = 3

    @classmethod
    def of(cls, data: Octets) -> MessageKind:
        """The kind of the message at the front of the bytes; what follows is passed over.

        >>> MessageKind.of(b"")
        <MessageKind.OTHER: 0>
        """
        given = octets(data)
        return cls(library.smblease_message_kind(given, len(given)))


@dataclass(frozen=True)
class Notification:
    """A lease break notification, by which a server says that a lease goes down from the state `current` to the state `new`.

    >>> key = uuid.UUID("00010203-0405-0607-0809-0a0b0c0d0e0f")
    >>> notification = Notification(key, LeaseState.of("RWH"), LeaseState.of("RH"), ack_required=True)
    >>> notification.write().hex()[:16]
    '2c00000001000000'
    >>> Notification.read(notification.write()) == notification
    True
    """

    key: uuid.UUID
    current: LeaseState
    new: LeaseState
    ack_required: bool

    @classmethod
    def read(cls, data: Octets) -> Notification:
        """Reads one from the front of the bytes. What follows is passed over.

        >>> Notification.read(bytes(44))
        Traceback (most recent call last):
        ...
        smblease.faults.Fault: fault 2 WrongSize at 0
        """
        given, found = octets(data), structs.Notification()
        raise_fault(library.smblease_read_notification(given, len(given), ctypes.byref(found)))
        return cls(key_of(found.key), LeaseState(found.current_state), LeaseState(found.new_state), bool(found.ack_required))

    def _struct(self) -> structs.Notification:
        return structs.Notification(key_field(self.key), LeaseState(self.current).value, LeaseState(self.new).value,
                                    bool(self.ack_required))

    def write(self) -> bytes:
        """Its 44 bytes.

        >>> len(Notification(uuid.UUID(int=1), LeaseState.R, LeaseState.NONE, False).write())
        44
        """
        return written(library.smblease_write_notification, self._struct(), NOTIFICATION_SIZE)

    def acknowledgment(self) -> Optional[Acknowledgment]:
        """The acknowledgment that it asks for (3.2.5.19.2), or None where it asks for none.

        >>> notification = Notification(uuid.UUID(int=1), LeaseState.of("RWH"), LeaseState.of("RH"), True)
        >>> str(notification.acknowledgment().state)
        'RH'
        """
        found = structs.Acknowledgment()
        if not library.smblease_acknowledgment_due(ctypes.byref(self._struct()), ctypes.byref(found)):
            return None
        return Acknowledgment(key_of(found.key), LeaseState(found.state))


@dataclass(frozen=True)
class _StateMessage:
    """A key and a state, which acknowledgments and responses have in one layout."""

    key: uuid.UUID
    state: LeaseState
    _kind: ClassVar[Any]
    _reader: ClassVar[Any]
    _writer: ClassVar[Any]

    @classmethod
    def read(cls: Type[Self], data: Octets) -> Self:
        """Reads one from the front of the bytes. What follows is passed over.

        >>> Acknowledgment.read(b"")
        Traceback (most recent call last):
        ...
        smblease.faults.Fault: fault 1 Short at 0
        >>> Response.read(bytes([36]) + bytes(35)).state
        <LeaseState none>
        """
        given, found = octets(data), cls._kind()
        raise_fault(cls._reader(given, len(given), ctypes.byref(found)))
        return cls(key_of(found.key), LeaseState(found.state))

    def write(self) -> bytes:
        """Its 36 bytes.

        >>> Acknowledgment(uuid.UUID(int=1), LeaseState.R).write().hex()[:16]
        '2400000000000000'
        >>> Response(uuid.UUID(int=1), LeaseState.R).write().hex()[-24:]
        '010000000000000000000000'
        """
        return written(self._writer, self._kind(key_field(self.key), LeaseState(self.state).value), ACKNOWLEDGMENT_SIZE)


@dataclass(frozen=True)
class Acknowledgment(_StateMessage):
    """A lease break acknowledgment, by which a client gives up what a break takes; it keeps `state`.

    >>> Acknowledgment.read(Acknowledgment(uuid.UUID(int=1), LeaseState.R).write()).state
    <LeaseState R>
    """

    _kind = structs.Acknowledgment
    _reader, _writer = library.smblease_read_acknowledgment, library.smblease_write_acknowledgment


@dataclass(frozen=True)
class Response(_StateMessage):
    """A lease break response, by which a server takes an acknowledgment; the lease now has `state`.

    >>> Response.read(Response(uuid.UUID(int=1), LeaseState.R).write()).state
    <LeaseState R>
    """

    _kind = structs.Response
    _reader, _writer = library.smblease_read_response, library.smblease_write_response
