"""What somebody asked to go wrong with the next message of a kind. It has no sockets and no clock."""
from __future__ import annotations

from collections.abc import Collection
from dataclasses import dataclass
from enum import Enum
from typing import NamedTuple, Optional, Union

# A break is a message of its own, which answers no request.
NOTIFICATION = "NOTIFICATION"


class Action(Enum):
    REFUSE = "refuse"
    DROP = "drop"
    DELAY = "delay"
    REORDER = "reorder"
    # (nothing goes wrong: somebody waits for the message)
    WAIT = "wait"


ON_ANSWERS = (Action.DROP, Action.DELAY, Action.REORDER)
WAITS = (Action.WAIT,)
REFUSES = (Action.REFUSE,)


class Peer(NamedTuple):
    """Who is at the other end: its number, where it has a session, and its ClientGuid, once that is known."""

    number: Optional[int] = None
    guid: Optional[bytes] = None


@dataclass(eq=False)
class Fault:
    action: Action
    # a command's name, or NOTIFICATION
    kind: str
    # a client's number or its ClientGuid; any client's where there is none
    client: Union[int, bytes, None] = None
    status: int = 0
    seconds: float = 0.0
    is_over: bool = False

    def meets(self, actions: Collection[Action], kind: str, peer: Peer) -> bool:
        return self.action in actions and self.kind == kind and (self.client is None or self.client in peer)


class Faults:
    """Those that wait for their message, in the order in which they came. There are none where nobody asks for any."""

    def __init__(self) -> None:
        self.waiting: list[Fault] = []

    def add(self, fault: Fault) -> None:
        self.waiting.append(fault)

    def take(self, actions: Collection[Action], kind: str, peer: Peer) -> Fault | None:
        """The first one that the message meets, which is over by that."""
        found = next((it for it in self.waiting if it.meets(actions, kind, peer)), None)
        if found:
            self.waiting.remove(found)
            found.is_over = True
        return found
