"""Where a server is, who asks, and what a run has to know of it."""
from __future__ import annotations

from abc import ABC, abstractmethod
from dataclasses import dataclass
from enum import Enum

from smblease.serve.dialects import Dialect

# Those that can be driven; 2.0.2 has no leases.
DRIVEN = tuple(it for it in Dialect if it >= Dialect.SMB_2_1)

@dataclass(frozen=True)
class Place:
    host: str
    port: int
    share: str
    user: str
    password: str
    domain: str = ""
    # whether a ticket of Kerberos says who asks, and no password
    by_ticket: bool = False
    # those that are offered, of which the greatest stands last
    dialects: tuple[Dialect, ...] = (Dialect.SMB_2_1,)
    # whether all has to be encrypted, whatever the server wants
    encrypts: bool = False


class Timers(Enum):
    """Which timers of breaks run out where one is made to."""

    ONE = "that of the lease alone"
    OF_CONNECTION = "those of the client's connection"
    ALL = "those of every client"


class Server(ABC):
    """A server that is driven. What a kind of server has nothing to do for is left as it is here."""

    # whether it is there behind the run, with the files that were made
    stays = False
    # whether it is the one of docs/PROFILE.md, whose timers can be ended one by one
    is_profiled = False
    timers = Timers.ONE
    # how many seconds a break may wait before its timer may run out by itself, where that is known
    patience: float | None = None
    # whether a run came to no end on it
    has_failed = False
    place: Place

    def name_of(self, file: int) -> str:
        """The name of a file of the schedule."""
        return f"file-{file}"

    def is_prepared(self) -> None:
        """Waits until the connection that made the files is forgotten."""

    def new_process(self) -> int | None:
        """The process that serves the connection made last, where it is known."""
        return None

    def wait_for_end(self, process: int | None) -> None:
        """Waits until what a connection leaves to do that the server has closed is done."""

    @abstractmethod
    def begin_break_timer(self, process: int | None, guid: bytes, key: bytes) -> None:
        """Has the break timers of a connection run out, or that of one lease of a client."""

    def end_break_timer(self, process: int | None) -> None:
        """Puts back what that took."""

    @abstractmethod
    def pass_durable_timer(self, file_ids: list[int]) -> None:
        """Has the timers of disconnected opens run out, or that of the first of these that is still there."""

    def content(self, name: str) -> bytes | None:  # pylint: disable=unused-argument
        """The file of this name as it is on disk, where that can be looked at."""
        return None

    def close(self) -> None:
        """Ends it, where it was made for the run."""
