"""The server machine: a server of leases and durable opens (MS-SMB2 3.3), with no sockets and no clock.

Clients and files are numbers from 1. A call passes in what happens, and gives what the server gives out.
"""
from __future__ import annotations

import ctypes
import uuid
from typing import Any, Callable, Dict, Iterable, Optional, Tuple, Type

from smblease import _structs as structs
from smblease import outs, replies, requests
from smblease._arguments import BYTE, LONG, Octets, key_field, key_octets, number, octets
from smblease._fields import arguments_of, item_of
from smblease._handles import Handle, Outcome, check
from smblease._library import library
from smblease.values import LARGEST_FILE, LeaseState, Order, Rise, Rules

Outs = Tuple[outs.Out, ...]

# What the library gives out, by its numbers from 1.
_OUTS = (replies.Created, replies.CreateFailed, replies.ReadDone, replies.ReadFailed, replies.WriteDone, replies.WriteFailed,
         replies.Closed, replies.CloseFailed, replies.Break, replies.AcknowledgeDone, replies.AcknowledgeFailed,
         outs.Opened, outs.Changed)


def _out(has: structs.ServerOut, data: bytes) -> outs.Out:
    given = item_of(_OUTS, has, data)
    return given if isinstance(given, (outs.Opened, outs.Changed)) else outs.Sent(int(has.client), given)


def _key(key: uuid.UUID) -> structs.Key:
    return structs.Key.from_buffer_copy(key_octets(key))


def _maybe_key(key: Optional[uuid.UUID]) -> structs.MaybeKey:
    return structs.MaybeKey() if key is None else structs.MaybeKey(key_field(key), 1)


def _add_files(files: structs.Files, contents: Iterable[Octets]) -> None:
    for content in map(octets, contents):
        outcome = library.smblease_files_add(ctypes.byref(files), content, len(content))
        if outcome == Outcome.NO_SUCH:
            raise ValueError(f"a server has at most 255 files, and a file at most {LARGEST_FILE} bytes")
        check(outcome, "server")


class Server(Handle[structs.Server]):
    """A server whose files have these contents, in the order of their numbers from 1, of the profile's rules or of others. No
    client has joined.

    Where there is no memory for a call, MemoryError is raised and nothing changed; where memory ran out within it, MachineLost.

    >>> with Server([b"abc", b""]) as server:
    ...     server.content(1), server.content(2)
    (b'abc', b'')
    >>> server.content(1)
    Traceback (most recent call last):
    ...
    ValueError: the server is closed
    """

    def __init__(self, contents: Iterable[Octets], rules: Rules = Rules()) -> None:
        super().__init__(structs.Server(), library.smblease_server_free, "server")
        if not isinstance(rules, Rules):
            raise TypeError(f"rules are needed, as Rules.of('by-key,whole'), and not {rules!r}")
        numbers = Order(rules.order).value, Rise(rules.rise).value
        files = structs.Files()
        try:
            _add_files(files, contents)
            made = library.smblease_server_new_with_rules(ctypes.byref(self._handle), ctypes.byref(files), *numbers)
            if made != Outcome.DONE:
                raise MemoryError("there is no memory for a server")
        finally:
            library.smblease_files_free(ctypes.byref(files))

    def _outs(self, call: Callable[..., int], *arguments: object) -> Outs:
        with self._lock:
            self._check(call(ctypes.byref(self._handle), *arguments))
            given = self._parts(library.smblease_server_out_count, library.smblease_server_out_at, structs.ServerOut)
        return tuple(_out(*it) for it in given)

    def _asked(self, call: Callable[..., int], *arguments: object) -> int:
        with self._lock:
            self._check_open()
            return int(call(ctypes.byref(self._handle), *arguments))

    def join(self, client: int) -> Outs:
        """A client connects (3.3.5.1).

        >>> Server([]).join(1)
        ()
        """
        return self._outs(library.smblease_server_join, number(client, BYTE, "client"))

    def cut(self, client: int) -> Outs:
        """A client's connection is lost (3.3.7.1).

        >>> Server([]).cut(1)
        ()
        """
        return self._outs(library.smblease_server_cut, number(client, BYTE, "client"))

    def expire(self, client: int, key: uuid.UUID) -> Outs:
        """The timer of the break of a client's lease runs out (3.3.6.5).

        >>> Server([]).expire(1, uuid.UUID(int=1))
        ()
        """
        return self._outs(library.smblease_server_expire, number(client, BYTE, "client"), ctypes.byref(_key(key)))

    def scavenge(self, file_id: int) -> Outs:
        """The timer of a durable open runs out (3.3.6.2).

        >>> Server([]).scavenge(1)
        ()
        """
        return self._outs(library.smblease_server_scavenge, number(file_id, LONG, "file_id"))

    def receive(self, client: int, request: requests.Request) -> Outs:
        """A request of a client comes. Of a client that isn't connected nothing is received.

        >>> from smblease import Access, Share
        >>> server = Server([b"abc"])
        >>> server.join(1)
        ()
        >>> server.receive(1, requests.CreateRequest(1, Access.WRITE, Share.READ, b""))
        (Opened(file=1, client=1), Sent(client=1, reply=Created(file=1, file_id=1, contexts=b'')))
        >>> changed, sent = server.receive(1, requests.WriteRequest(1, 1, 0, b"X"))
        >>> changed, server.content(1)
        (Changed(file=1, client=1, number=1, offset=0, data=b'X'), b'Xbc')
        """
        if type(request) not in _RECEIVING:
            raise TypeError(f"a request is needed, and not {request!r}")
        return self._outs(_RECEIVING[type(request)], number(client, BYTE, "client"), *arguments_of(request))

    def allowed(self, client: int, key: Optional[uuid.UUID], file: int, want: LeaseState) -> LeaseState:
        """What may be granted to a client of the state that it wants.

        >>> str(Server([b""]).allowed(1, None, 1, LeaseState.of("RWH")))
        'RWH'
        """
        return LeaseState(self._asked(library.smblease_server_allowed, number(client, BYTE, "client"),
                                      ctypes.byref(_maybe_key(key)), number(file, BYTE, "file"), LeaseState(want).value))

    def connected(self, client: int) -> bool:
        """Whether a client is connected.

        >>> Server([]).connected(1)
        False
        """
        return bool(self._asked(library.smblease_server_connected, number(client, BYTE, "client")))

    def breaking(self, client: int, key: uuid.UUID) -> bool:
        """Whether a break of a client's lease waits for its acknowledgment.

        >>> Server([]).breaking(1, uuid.UUID(int=1))
        False
        """
        return bool(self._asked(library.smblease_server_breaking, number(client, BYTE, "client"), ctypes.byref(_key(key))))

    def left_behind(self, file_id: int) -> bool:
        """Whether an open waits for its client to connect again.

        >>> Server([]).left_behind(1)
        False
        """
        return bool(self._asked(library.smblease_server_left_behind, number(file_id, LONG, "file_id")))

    def kept(self, client: int, file: int) -> Optional[int]:
        """The FileId of a client's oldest durable open on a file that waits for it, or None where there is none.

        >>> Server([b""]).kept(1, 1) is None
        True
        """
        found = ctypes.c_uint64()
        outcome = self._asked(library.smblease_server_kept, number(client, BYTE, "client"), number(file, BYTE, "file"),
                              ctypes.byref(found))
        return found.value if outcome == Outcome.DONE else None

    def content(self, file: int) -> bytes:
        """The bytes of a file.

        >>> Server([b"abc"]).content(2)
        Traceback (most recent call last):
        ...
        ValueError: a number stands for nothing of the server
        """
        with self._lock:
            count, handle, place = ctypes.c_uint64(), ctypes.byref(self._handle), number(file, BYTE, "file")
            self._check(library.smblease_server_content(handle, place, ctypes.byref(count), None, 0))
            room = ctypes.create_string_buffer(count.value)
            self._check(library.smblease_server_content(handle, place, ctypes.byref(count), room, count.value))
        return room.raw


# The call for a request of each kind.
_RECEIVING: Dict[Type[Any], Callable[..., int]] = {
    requests.CreateRequest: library.smblease_server_receive_create, requests.ReadRequest: library.smblease_server_receive_read,
    requests.WriteRequest: library.smblease_server_receive_write, requests.CloseRequest: library.smblease_server_receive_close,
    requests.AcknowledgeRequest: library.smblease_server_receive_ack,
}
