"""Requests: what a client machine sends, and a server machine receives. Numbers of files are from 1, FileIds are the server's.

>>> ReadRequest(file_id=7)
ReadRequest(file_id=7)
"""
from __future__ import annotations

from dataclasses import dataclass
from typing import Union

from smblease.values import Access, Share


@dataclass(frozen=True)
class CreateRequest:
    """To open a file, with the text of create contexts.

    >>> CreateRequest(1, Access.READ, Share.READ_WRITE, b"").file
    1
    """

    file: int
    access: Access
    share: Share
    contexts: bytes


@dataclass(frozen=True)
class ReadRequest:
    """To read the whole file of an open.

    >>> ReadRequest(7).file_id
    7
    """

    file_id: int


@dataclass(frozen=True)
class WriteRequest:
    """To write these bytes from `offset` on. A client numbers its writes from 1.

    >>> WriteRequest(7, 1, 0, b"X").data
    b'X'
    """

    file_id: int
    number: int
    offset: int
    data: bytes


@dataclass(frozen=True)
class CloseRequest:
    """To close an open.

    >>> CloseRequest(7).file_id
    7
    """

    file_id: int


@dataclass(frozen=True)
class AcknowledgeRequest:
    """A lease break acknowledgment, by the 36 bytes of its message.

    >>> len(AcknowledgeRequest(bytes(36)).message)
    36
    """

    message: bytes


Request = Union[CreateRequest, ReadRequest, WriteRequest, CloseRequest, AcknowledgeRequest]
