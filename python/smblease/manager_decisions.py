"""What a manager of leases decides: what its host is to do, in this order, one after the other (include/smblease_manager.h).

A request is named by its client and the tag under which it came.
"""
from __future__ import annotations

import struct
from dataclasses import dataclass
from typing import Any, Callable, Dict, Optional, Tuple, Union

from smblease import _structs as structs
from smblease._arguments import key_of
from smblease.contexts import NOTHING_GRANTED, CreateAnswer
from smblease.messages import Notification, Response
from smblease.values import LeaseState

__all__ = ["Acknowledged", "Breaks", "Closed", "Decision", "Decisions", "Ended", "GoesOn", "LeftBehind", "NotAcknowledged",
           "Opened", "Refused", "Waits", "Withdrawn"]


@dataclass(frozen=True)
class Opened:
    """The create is answered, with these contexts: its file is open under this FileId, or is again.

    >>> Opened(1, 10, 7, CreateAnswer(durable=True)).answer.write().hex()[-16:]
    '0000000000000000'
    """

    client: int
    tag: int
    file_id: int
    answer: CreateAnswer


@dataclass(frozen=True)
class GoesOn:
    """The read, the write or the change is done now, before what comes after it, and answered.

    >>> GoesOn(client=1, tag=11).tag
    11
    """

    client: int
    tag: int


@dataclass(frozen=True)
class Closed:
    """The close is done, and answered.

    >>> Closed(client=1, tag=12).client
    1
    """

    client: int
    tag: int


@dataclass(frozen=True)
class Refused:
    """The request is answered with the status.

    >>> from smblease import Status
    >>> Refused(1, 10, 0xC0000043).status == Status.SHARING_VIOLATION
    True
    """

    client: int
    tag: int
    status: int


@dataclass(frozen=True)
class Waits:
    """The request or the change waits for a break, and is answered with STATUS_PENDING: a decision of another kind comes for its
    tag.

    >>> Waits(client=2, tag=20).tag
    20
    """

    client: int
    tag: int


@dataclass(frozen=True)
class Withdrawn:
    """The request or the change that waited was taken back, and is answered with STATUS_CANCELLED.

    >>> Withdrawn(client=2, tag=20).tag
    20
    """

    client: int
    tag: int


@dataclass(frozen=True)
class Breaks:
    """The client is sent the notification. Where it has to be acknowledged, a timer is started, which keeps the number.

    >>> import uuid
    >>> notification = Notification(uuid.UUID(int=1), LeaseState.of("RWH"), LeaseState.of("RH"), True)
    >>> Breaks(client=1, notification=notification, timer=1).notification.write().hex()[:16]
    '2c00000001000000'
    """

    client: int
    notification: Notification
    timer: Optional[int] = None


@dataclass(frozen=True)
class Acknowledged:
    """The acknowledgment is answered with the response, and the break has ended.

    >>> import uuid
    >>> Acknowledged(1, Response(uuid.UUID(int=1), LeaseState.of("RH"))).response.state
    <LeaseState RH>
    """

    client: int
    response: Response


@dataclass(frozen=True)
class NotAcknowledged:
    """The acknowledgment is answered with the status.

    >>> hex(NotAcknowledged(1, 0xC000000D).status)
    '0xc000000d'
    """

    client: int
    status: int


@dataclass(frozen=True)
class Ended:
    """The open is no more, though its client didn't close it: the host lets go of its handle.

    >>> Ended(file_id=7).file_id
    7
    """

    file_id: int


@dataclass(frozen=True)
class LeftBehind:
    """The open waits for its client from now on: the host starts its timer (3.3.6.2).

    >>> LeftBehind(file_id=7).file_id
    7
    """

    file_id: int


Decision = Union[Opened, GoesOn, Closed, Refused, Waits, Withdrawn, Breaks, Acknowledged, NotAcknowledged, Ended, LeftBehind]
Decisions = Tuple[Decision, ...]


# The fields of a struct of smblease_manager_decision, but for those that are reserved.
_LAYOUT = struct.Struct("<QQQ16sLLLLLBBBBQ")
_STATES = tuple(map(LeaseState, range(8)))
_Fields = Tuple[Any, ...]


def _opened(has: _Fields) -> Opened:
    client, tag, file_id, key, _, _, state, _, _, has_lease, breaking, durable, _, _ = has
    if not has_lease and not state and not breaking and not durable:
        return Opened(client, tag, file_id, NOTHING_GRANTED)
    answer = CreateAnswer(key_of(key) if has_lease else None, _STATES[state], bool(breaking), bool(durable))
    return Opened(client, tag, file_id, answer)


def _breaks(has: _Fields) -> Breaks:
    client, _, _, key, _, _, _, current, new, _, _, _, ack_required, number = has
    return Breaks(client, Notification(key_of(key), _STATES[current], _STATES[new], bool(ack_required)), number or None)


def _acknowledged(has: _Fields) -> Acknowledged:
    return Acknowledged(has[0], Response(key_of(has[3]), _STATES[has[6]]))


# enum smblease_manager_decision_kind
_KINDS: Dict[int, Callable[[_Fields], Decision]] = {
    1: _opened, 2: lambda has: GoesOn(has[0], has[1]), 3: lambda has: Closed(has[0], has[1]),
    4: lambda has: Refused(has[0], has[1], has[5]), 5: lambda has: Waits(has[0], has[1]),
    6: lambda has: Withdrawn(has[0], has[1]), 7: _breaks, 8: _acknowledged,
    9: lambda has: NotAcknowledged(has[0], has[5]), 10: lambda has: Ended(has[2]), 11: lambda has: LeftBehind(has[2]),
}


def decision_of(room: structs.ManagerDecision) -> Decision:
    """A decision, of the struct that holds it."""
    has = _LAYOUT.unpack_from(room)
    return _KINDS[has[4]](has)
