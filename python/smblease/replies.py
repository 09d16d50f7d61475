"""Replies: the messages that a server machine sends, and a client machine takes. Each says which request it answers; `Break`
answers none.

>>> ReadDone(file_id=7, data=b"abc")
ReadDone(file_id=7, data=b'abc')
"""
from __future__ import annotations

from dataclasses import dataclass
from typing import Union

from smblease.requests import CloseRequest, CreateRequest, ReadRequest, Request, WriteRequest


@dataclass(frozen=True)
class Created:
    """The file is open, as this FileId; with the text of create contexts.

    >>> Created(1, 7, b"").file_id
    7
    """

    file: int
    file_id: int
    contexts: bytes


@dataclass(frozen=True)
class CreateFailed:
    """The file isn't opened, for this NTSTATUS.

    >>> CreateFailed(1, 0xC0000043).status == 0xC0000043
    True
    """

    file: int
    status: int


@dataclass(frozen=True)
class ReadDone:
    """The bytes of the whole file.

    >>> ReadDone(7, b"abc").data
    b'abc'
    """

    file_id: int
    data: bytes


@dataclass(frozen=True)
class ReadFailed:
    """The file isn't read, for this NTSTATUS.

    >>> ReadFailed(7, 0xC0000128).file_id
    7
    """

    file_id: int
    status: int


@dataclass(frozen=True)
class WriteDone:
    """The client's write of this number is done.

    >>> WriteDone(7, 1).number
    1
    """

    file_id: int
    number: int


@dataclass(frozen=True)
class WriteFailed:
    """The client's write of this number isn't done, for this NTSTATUS.

    >>> WriteFailed(7, 1, 0xC0000022).number
    1
    """

    file_id: int
    number: int
    status: int


@dataclass(frozen=True)
class Closed:
    """The open is closed.

    >>> Closed(7).file_id
    7
    """

    file_id: int


@dataclass(frozen=True)
class CloseFailed:
    """The open isn't closed, for this NTSTATUS.

    >>> CloseFailed(7, 0xC0000128).file_id
    7
    """

    file_id: int
    status: int


@dataclass(frozen=True)
class Break:
    """A lease is broken: the 44 bytes of the notification.

    >>> len(Break(bytes(44)).message)
    44
    """

    message: bytes


@dataclass(frozen=True)
class AcknowledgeDone:
    """An acknowledgment is accepted: the 36 bytes of the response.

    >>> len(AcknowledgeDone(bytes(36)).message)
    36
    """

    message: bytes


@dataclass(frozen=True)
class AcknowledgeFailed:
    """An acknowledgment is refused, for this NTSTATUS.

    >>> AcknowledgeFailed(0xC0000001).status == 0xC0000001
    True
    """

    status: int


Reply = Union[Created, CreateFailed, ReadDone, ReadFailed, WriteDone, WriteFailed, Closed, CloseFailed, Break, AcknowledgeDone,
              AcknowledgeFailed]


def failed(request: Request, status: int) -> Reply:
    """The reply that refuses a request, for this NTSTATUS.

    >>> failed(ReadRequest(7), 0xC0000128) == ReadFailed(7, 0xC0000128)
    True
    """
    if isinstance(request, CreateRequest):
        return CreateFailed(request.file, status)
    if isinstance(request, ReadRequest):
        return ReadFailed(request.file_id, status)
    if isinstance(request, WriteRequest):
        return WriteFailed(request.file_id, request.number, status)
    if isinstance(request, CloseRequest):
        return CloseFailed(request.file_id, status)
    return AcknowledgeFailed(status)
