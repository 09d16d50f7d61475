"""Create contexts of CREATE requests and responses (MS-SMB2 2.2.13.2, 2.2.14.2)."""
from __future__ import annotations

import ctypes
import uuid
from dataclasses import dataclass
from typing import Iterator, Optional

from smblease import _structs as structs
from smblease._arguments import LONG, Octets, key_field, key_of, number, octets
from smblease._library import library, written
from smblease.faults import raise_fault
from smblease.values import LeaseState

CREATE_ASK_MOST = 136
CREATE_ANSWER_MOST = 88


@dataclass(frozen=True)
class CreateAsk:
    """What the create contexts of a request ask for: a lease of this key, or none where `key` is None, with the state that is
    wanted; a durable open; the FileId of a durable open that is to be connected again.

    `has_other_lease` says of contexts that were read that a lease context of version 2 is there, which was passed over.

    >>> key = uuid.UUID("00010203-0405-0607-0809-0a0b0c0d0e0f")
    >>> ask = CreateAsk(key, LeaseState.of("RWH"), durable=True)
    >>> CreateAsk.read(ask.write()) == ask
    True
    >>> CreateAsk().write()
    b''
    """

    key: Optional[uuid.UUID] = None
    state: LeaseState = LeaseState.NONE
    durable: bool = False
    reconnect: Optional[int] = None
    has_other_lease: bool = False

    @classmethod
    def read(cls, text: Octets) -> CreateAsk:
        """Reads the contexts of a request. Those that aren't known are passed over.

        >>> CreateAsk.read(CreateAsk(reconnect=7).write()).reconnect
        7
        """
        given, found = octets(text), structs.CreateAsk()
        raise_fault(library.smblease_read_create_ask(given, len(given), ctypes.byref(found)))
        return ask_of(found)

    def write(self) -> bytes:
        """The text of the contexts that are asked for.

        >>> CreateAsk(uuid.UUID(int=1), LeaseState.R).write().hex()[:40]
        '0000000010000400000018002000000052714c73'
        """
        return written(library.smblease_write_create_ask, ask_struct(self), CREATE_ASK_MOST)


# It asks for nothing.
NO_ASK = CreateAsk()


def ask_of(found: structs.CreateAsk) -> CreateAsk:
    """What a call found that is asked for."""
    return CreateAsk(key_of(found.key) if found.has_lease else None, LeaseState(found.state), bool(found.durable),
                     int(found.file_id) if found.has_reconnect else None, bool(found.has_other_lease))


def ask_struct(ask: CreateAsk) -> structs.CreateAsk:
    """What is asked for, as a call is given it."""
    found = structs.CreateAsk(state=LeaseState(ask.state).value, durable=bool(ask.durable))
    if ask.key is not None:
        found.has_lease, found.key = 1, key_field(ask.key)
    if ask.reconnect is not None:
        found.has_reconnect, found.file_id = 1, number(ask.reconnect, LONG, "reconnect")
    return found


@dataclass(frozen=True)
class CreateAnswer:
    """What the create contexts of a response grant: a lease of this key, or none where `key` is None, with the state that it has,
    and whether a break of it is in progress; a durable open. `has_other_lease` is as in CreateAsk.

    >>> answer = CreateAnswer(uuid.UUID(int=1), LeaseState.of("RH"), durable=True)
    >>> CreateAnswer.read(answer.write()) == answer
    True
    """

    key: Optional[uuid.UUID] = None
    state: LeaseState = LeaseState.NONE
    breaking: bool = False
    durable: bool = False
    has_other_lease: bool = False

    @classmethod
    def read(cls, text: Octets) -> CreateAnswer:
        """Reads the contexts of a response. Those that aren't known are passed over.

        >>> CreateAnswer.read(b"")
        CreateAnswer(key=None, state=<LeaseState none>, breaking=False, durable=False, has_other_lease=False)
        """
        given, found = octets(text), structs.CreateAnswer()
        raise_fault(library.smblease_read_create_answer(given, len(given), ctypes.byref(found)))
        return cls(key_of(found.key) if found.has_lease else None, LeaseState(found.state), bool(found.breaking),
                   bool(found.durable), bool(found.has_other_lease))

    def write(self) -> bytes:
        """The text of the contexts that are granted.

        >>> len(CreateAnswer(uuid.UUID(int=1), LeaseState.R, durable=True).write())
        88
        """
        if self is NOTHING_GRANTED:
            return b""
        answer = structs.CreateAnswer(state=LeaseState(self.state).value, breaking=bool(self.breaking),
                                      durable=bool(self.durable))
        if self.key is not None:
            answer.has_lease, answer.key = 1, key_field(self.key)
        return written(library.smblease_write_create_answer, answer, CREATE_ANSWER_MOST)


# The answer to an ask that asks for nothing: no contexts.
NOTHING_GRANTED = CreateAnswer()


@dataclass(frozen=True)
class Context:
    """A create context, whether its name is known or not.

    >>> Context(b"RqLs", bytes(32)).name
    b'RqLs'
    """

    name: bytes
    data: bytes


def _context_of(text: bytes, found: structs.Context) -> Context:
    return Context(text[found.name_place:found.name_place + found.name_length],
                   text[found.data_place:found.data_place + found.data_length])


def each_context(text: Octets) -> Iterator[Context]:
    """Each context of a text, in order. Where one fails a test of the layout, Fault is raised in its place.

    >>> [(it.name, len(it.data)) for it in each_context(CreateAsk(uuid.UUID(int=1), LeaseState.R, durable=True).write())]
    [(b'RqLs', 32), (b'DHnQ', 16)]
    """
    given, found, place = octets(text), structs.Context(), 0
    has_more = bool(given)
    while has_more:
        raise_fault(library.smblease_read_context(given, len(given), place, ctypes.byref(found)))
        yield _context_of(given, found)
        place = found.next_place
        has_more = place != 0


def find_context(text: Octets, name: Octets) -> Optional[Context]:
    """The first context of this name, or None where there is none before the first fault of the text's layout.

    >>> text = CreateAsk(uuid.UUID(int=1), LeaseState.R).write()
    >>> find_context(text, b"RqLs") is not None, find_context(text, b"DHnQ")
    (True, None)
    """
    given, wanted, found = octets(text), octets(name), structs.Context()
    if not library.smblease_find_context(given, len(given), wanted, len(wanted), ctypes.byref(found)):
        return None
    return _context_of(given, found)


def replace_data(text: Octets, name: Octets, data: Octets) -> bytes:
    """The text, in which the data of the first context of this name begin with these bytes. It is as it was where that context
    isn't found, or has fewer bytes.

    >>> text = CreateAsk(uuid.UUID(int=1), LeaseState.R).write()
    >>> CreateAsk.read(replace_data(text, b"RqLs", uuid.UUID(int=2).bytes)).key == uuid.UUID(int=2)
    True
    """
    given, wanted, found, new = octets(text), octets(name), structs.Context(), octets(data)
    is_found = library.smblease_find_context(given, len(given), wanted, len(wanted), ctypes.byref(found))
    if not is_found or len(new) > found.data_length:
        return given
    return given[:found.data_place] + new + given[found.data_place + len(new):]


def append_context(text: Octets, context: Context) -> bytes:
    """The text with one more context after its others, as MxAc or QFid, which a server answers too. Where the text fails a test
    of the layout, Fault is raised; where the context doesn't fit the fields of its header, ValueError: a name has 65,512 bytes at
    most.

    >>> answer = CreateAnswer(uuid.UUID(int=1), LeaseState.R).write()
    >>> [it.name for it in each_context(append_context(answer, Context(b"QFid", bytes(32))))]
    [b'RqLs', b'QFid']
    """
    given, name, data = octets(text), octets(context.name), octets(context.data)
    most = len(given) + 7 + 16 + len(name) + 7 + len(data)
    room = ctypes.create_string_buffer(given, most)
    length = int(library.smblease_append_context(room, most, len(given), name, len(name), data, len(data)))
    if not length:
        for _ in each_context(given):
            pass
        raise ValueError("the context doesn't fit the fields of its header")
    return room.raw[:length]
