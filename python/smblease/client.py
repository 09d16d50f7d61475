"""The client machine: the cache of a client of leases and durable opens (MS-SMB2 3.2), with no sockets and no clock.

A call passes in a command of the application, or a reply of the server, and gives a Step. Numbers of files are from 1.
"""
from __future__ import annotations

import ctypes
import uuid
from functools import partial
from typing import Any, Callable, Dict, Type

from smblease import _structs as structs
from smblease import replies, requests, steps
from smblease._arguments import BYTE, WORD, Octets, counted, key_octets, key_of, number
from smblease._fields import arguments_of, item_of
from smblease._handles import Handle, with_bytes
from smblease._library import library
from smblease.values import Access, LeaseState, Share

# What the library gives out, by its numbers from 1.
_ANSWERS = (steps.Done, steps.Waiting, steps.FileBytes, steps.Refused, steps.Failed, steps.Quiet)
_REQUESTS = (requests.CreateRequest, requests.ReadRequest, requests.WriteRequest, requests.CloseRequest,
             requests.AcknowledgeRequest)
_NOTES = (steps.Settled, steps.Wrote, steps.Believes, steps.CachedRead)


def lease_key(guid: uuid.UUID, file: int) -> uuid.UUID:
    """The lease key under which the client of a ClientGuid opens a file (3.2.4.3.8).

    >>> lease_key(uuid.UUID("11111111-1111-1111-1111-111111111111"), 2)
    UUID('11111111-1111-1111-1111-111102000000')
    """
    found = structs.Key()
    library.smblease_client_key(ctypes.byref(structs.Guid.from_buffer_copy(key_octets(guid))), number(file, BYTE, "file"),
                                ctypes.byref(found))
    return key_of(found.bytes)


class Client(Handle[structs.Client]):
    """A client with files from 1 to `files`, that was never connected.

    `guid` is its ClientGuid, whose `bytes` are those of the wire. Where there is no memory for a call, MemoryError is raised and
    nothing changed; where memory ran out within it, MachineLost.

    >>> with Client(uuid.UUID(int=1), files=1) as client:
    ...     client.read(1).answer
    Refused(refusal=<Refusal.NOT_OPEN: 1>)
    >>> client.read(1)
    Traceback (most recent call last):
    ...
    ValueError: the client is closed
    """

    def __init__(self, guid: uuid.UUID, files: int) -> None:
        super().__init__(structs.Client(), library.smblease_client_free, "client")
        self.guid = guid
        given = structs.Guid.from_buffer_copy(key_octets(guid))
        self._check(library.smblease_client_new(ctypes.byref(self._handle), ctypes.byref(given), number(files, BYTE, "files")))

    def _step(self, call: Callable[..., int], *arguments: object) -> steps.Step:
        with self._lock:
            self._check(call(ctypes.byref(self._handle), *arguments))
            answer = with_bytes(partial(library.smblease_client_answer, ctypes.byref(self._handle)), structs.Answer(), "client")
            sent = self._parts(library.smblease_client_request_count, library.smblease_client_request_at, structs.ClientRequest)
            noted = self._parts(library.smblease_client_note_count, library.smblease_client_note_at, structs.Note)
        return steps.Step(item_of(_ANSWERS, *answer), tuple(item_of(_REQUESTS, *it) for it in sent),
                          tuple(item_of(_NOTES, *it) for it in noted))

    def connect(self) -> steps.Step:
        """The client connects (3.2.4.4). The requests are those by which it opens again what it had kept.

        >>> Client(uuid.UUID(int=1), 1).connect().requests
        ()
        """
        return self._step(library.smblease_client_connect)

    def notice(self) -> steps.Step:
        """The client notices that its connection is lost (3.2.7.1).

        >>> client = Client(uuid.UUID(int=1), 1)
        >>> connected = client.connect()
        >>> client.notice().notes
        ()
        """
        return self._step(library.smblease_client_notice)

    def open(self, file: int, access: Access, share: Share, want: LeaseState, durable: bool = False) -> steps.Step:
        """The application opens a file, and wants this state of a lease.

        >>> client = Client(uuid.UUID(int=1), 1)
        >>> client.open(1, Access.READ, Share.READ, LeaseState.of("RH")).answer
        Refused(refusal=<Refusal.OFFLINE: 4>)
        >>> connected = client.connect()
        >>> client.open(1, Access.READ, Share.READ, LeaseState.of("RH")).requests[0].access
        <Access.READ: 1>
        """
        terms = structs.OpenTerms(LeaseState(want).value, number(file, BYTE, "file"), Access(access).value, Share(share).value,
                                  bool(durable))
        return self._step(library.smblease_client_open, ctypes.byref(terms))

    def close(self, *file: object) -> None:
        """Frees the client, with all that it knows. Closing twice is no fault; any other call raises ValueError from then on.

        >>> client = Client(uuid.UUID(int=1), 1)
        >>> client.close(1)
        Traceback (most recent call last):
        ...
        TypeError: close frees the client and takes no file: close_file(1) closes a file
        >>> client.close()
        >>> client.closed
        True
        """
        if file:
            raise TypeError(f"close frees the client and takes no file: close_file({', '.join(map(repr, file))}) closes a file")
        super().close()

    def close_file(self, file: int) -> steps.Step:
        """The application closes a file.

        >>> Client(uuid.UUID(int=1), 1).close_file(1).answer
        Refused(refusal=<Refusal.NOT_OPEN: 1>)
        """
        return self._step(library.smblease_client_close, number(file, BYTE, "file"))

    def read(self, file: int) -> steps.Step:
        """The application reads a whole file.

        >>> Client(uuid.UUID(int=1), 1).read(1).answer
        Refused(refusal=<Refusal.NOT_OPEN: 1>)
        """
        return self._step(library.smblease_client_read, number(file, BYTE, "file"))

    def write(self, file: int, offset: int, data: Octets) -> steps.Step:
        """The application writes these bytes from `offset` on.

        >>> Client(uuid.UUID(int=1), 1).write(1, 0, b"X").answer
        Refused(refusal=<Refusal.NOT_OPEN: 1>)
        """
        return self._step(library.smblease_client_write, number(file, BYTE, "file"), number(offset, WORD, "offset"),
                          *counted(data))

    def flush(self, file: int) -> steps.Step:
        """The application has the buffered writes of a file sent.

        >>> Client(uuid.UUID(int=1), 1).flush(1).answer
        Refused(refusal=<Refusal.NOT_OPEN: 1>)
        """
        return self._step(library.smblease_client_flush, number(file, BYTE, "file"))

    def take(self, reply: replies.Reply) -> steps.Step:
        """A reply of the server comes. One that fits no open is passed over.

        >>> client = Client(uuid.UUID(int=1), 1)
        >>> connected = client.connect()
        >>> [asked] = client.open(1, Access.READ, Share.READ, LeaseState.R).requests
        >>> client.take(replies.Created(1, 7, asked.contexts)).notes
        (Believes(file=1, state=<LeaseState R>),)
        >>> client.take(replies.Break(bytes(43)))
        Traceback (most recent call last):
        ...
        ValueError: a lease break notification has 44 bytes, and not 43
        """
        if type(reply) not in _TAKING:
            raise TypeError(f"a reply is needed, and not {reply!r}")
        return self._step(_TAKING[type(reply)], *arguments_of(reply))

    def belief(self, file: int) -> LeaseState:
        """What the client believes of the lease of a file; NONE where it isn't open.

        >>> Client(uuid.UUID(int=1), 1).belief(1)
        <LeaseState none>
        """
        with self._lock:
            self._check_open()
            return LeaseState(library.smblease_client_belief(ctypes.byref(self._handle), number(file, BYTE, "file")))

    def key(self, file: int) -> uuid.UUID:
        """The lease key under which the client opens a file.

        >>> Client(uuid.UUID(int=0), 1).key(1) == lease_key(uuid.UUID(int=0), 1)
        True
        """
        return lease_key(self.guid, file)


# The call for a reply of each kind.
_TAKING: Dict[Type[Any], Callable[..., int]] = {
    replies.Created: library.smblease_client_take_created, replies.CreateFailed: library.smblease_client_take_create_failed,
    replies.ReadDone: library.smblease_client_take_read_done, replies.ReadFailed: library.smblease_client_take_read_failed,
    replies.WriteDone: library.smblease_client_take_write_done, replies.WriteFailed: library.smblease_client_take_write_failed,
    replies.Closed: library.smblease_client_take_closed, replies.CloseFailed: library.smblease_client_take_close_failed,
    replies.Break: library.smblease_client_take_break, replies.AcknowledgeDone: library.smblease_client_take_ack_done,
    replies.AcknowledgeFailed: library.smblease_client_take_ack_failed,
}
