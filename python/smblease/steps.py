"""What a call of a client machine gives: a Step, of the answer to the application, requests that go to the server, and notes."""
from __future__ import annotations

import enum
from dataclasses import dataclass
from typing import Tuple, Union

from smblease.requests import Request
from smblease.values import LeaseState


class Refusal(enum.Enum):
    """Why a command is refused.

    >>> Refusal(4)
    <Refusal.OFFLINE: 4>
    """

    NOT_OPEN = 1
    BUSY = 2
    DIFFERS = 3
    OFFLINE = 4
    TOO_LONG = 5
    DENIED = 6
    USED_UP = 7


class Settlement(enum.Enum):
    """What became of a write. LOST: it was kept over a lost connection and is given up; it may have been sent before.

    >>> Settlement(1)
    <Settlement.DONE: 1>
    """

    DONE = 1
    FAILED = 2
    UNKNOWN = 3
    LOST = 4


@dataclass(frozen=True)
class Done:
    """The command was done.

    >>> Done()
    Done()
    """


@dataclass(frozen=True)
class Waiting:
    """The answer comes with a reply of the server.

    >>> Waiting()
    Waiting()
    """


@dataclass(frozen=True)
class FileBytes:
    """The bytes of the file, from the cache or else from the server.

    >>> FileBytes(b"abc", cached=True)
    FileBytes(data=b'abc', cached=True)
    """

    data: bytes
    cached: bool


@dataclass(frozen=True)
class Refused:
    """The command is refused: nothing changed, and nothing is sent.

    >>> Refused(Refusal.BUSY).refusal.name
    'BUSY'
    """

    refusal: Refusal


@dataclass(frozen=True)
class Failed:
    """The server refused it, with this NTSTATUS.

    >>> Failed(0xC0000043).status == 0xC0000043
    True
    """

    status: int


@dataclass(frozen=True)
class Quiet:
    """There is nothing to be answered.

    >>> Quiet()
    Quiet()
    """


@dataclass(frozen=True)
class Settled:
    """What became of the write of this number.

    >>> Settled(1, Settlement.DONE).number
    1
    """

    number: int
    outcome: Settlement


@dataclass(frozen=True)
class Wrote:
    """The write of this number was taken, of these bytes from `offset` on: buffered, or sent.

    >>> Wrote(1, 1, 0, b"X", buffered=True).data
    b'X'
    """

    file: int
    number: int
    offset: int
    data: bytes
    buffered: bool


@dataclass(frozen=True)
class Believes:
    """The client's belief of the file's lease became this state.

    >>> str(Believes(1, LeaseState.of("RH")).state)
    'RH'
    """

    file: int
    state: LeaseState


@dataclass(frozen=True)
class CachedRead:
    """The file was read from the cache as these bytes.

    >>> CachedRead(1, b"abc").data
    b'abc'
    """

    file: int
    data: bytes


Answer = Union[Done, Waiting, FileBytes, Refused, Failed, Quiet]
Note = Union[Settled, Wrote, Believes, CachedRead]


@dataclass(frozen=True)
class Step:
    """What a call gave: the answer, requests in the order in which they are sent, and notes.

    >>> Step(Quiet(), (), ()).requests
    ()
    """

    answer: Answer
    requests: Tuple[Request, ...]
    notes: Tuple[Note, ...]
