"""What a call of a server machine gives out, in order: replies to clients, opens, and changes of files."""
from __future__ import annotations

from dataclasses import dataclass
from typing import Union

from smblease.replies import Reply


@dataclass(frozen=True)
class Sent:
    """A reply goes to a client.

    >>> from smblease import Closed
    >>> Sent(1, Closed(7)).reply
    Closed(file_id=7)
    """

    client: int
    reply: Reply


@dataclass(frozen=True)
class Opened:
    """The server opened a file for a client.

    >>> Opened(file=1, client=2).client
    2
    """

    file: int
    client: int


@dataclass(frozen=True)
class Changed:
    """The server changed a file by a client's write of this number: these bytes from `offset` on.

    >>> Changed(1, 2, 1, 0, b"X").data
    b'X'
    """

    file: int
    client: int
    number: int
    offset: int
    data: bytes


Out = Union[Sent, Opened, Changed]
