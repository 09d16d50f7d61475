"""Schedules: the files and clients that a run begins with, and its events, one a line (docs/FORMATS.md)."""
from __future__ import annotations

import uuid
from dataclasses import dataclass, replace
from enum import Enum

from smblease.faults import ToolFault
from smblease.lines import digits, read_digits, read_number


class EventKind(Enum):
    """What an event is, by its word."""

    OPEN = "open"
    CLOSE = "close"
    READ = "read"
    FLUSH = "flush"
    WRITE = "write"
    SERVE = "serve"
    TAKE = "take"
    CUT = "cut"
    NOTICE = "notice"
    CONNECT = "connect"
    EXPIRE = "expire"
    SCAVENGE = "scavenge"
    RAW = "raw"


@dataclass(frozen=True)
class Event:
    """An event of a client; `words` follow the client's number.

    >>> Event.read("write 1 1 0 58")
    Event(kind=<EventKind.WRITE: 'write'>, client=1, words=('1', '0', '58'))
    """

    kind: EventKind
    client: int
    words: tuple[str, ...] = ()

    @classmethod
    def read(cls, line: str) -> Event:
        kind, client, *words = line.split(" ")
        return cls(EventKind(kind), read_number(client), tuple(words))

    @property
    def text(self) -> str:
        return " ".join((self.kind.value, str(self.client), *self.words))


@dataclass(frozen=True)
class Schedule:
    """What the files hold, the ClientGuids of the clients, and the events.

    >>> text = "file -\\nclient 11111111-1111-1111-1111-111111111111\\nconnect 1\\n"
    >>> Schedule.read(text).text == text
    True
    >>> Schedule.read("# a remark\\nopened 1\\n")
    Traceback (most recent call last):
    ...
    smblease.faults.ToolFault: fault line 2
    """

    files: tuple[bytes, ...]
    clients: tuple[uuid.UUID, ...]
    events: tuple[Event, ...]

    @classmethod
    def read(cls, text: str) -> Schedule:
        """The schedule of a text. `leasecheck replay` says which texts are schedules; this reads those, and refuses a line that
        has no kind of a schedule, no client, or no bytes where they have to be."""
        files: list[bytes] = []
        clients: list[uuid.UUID] = []
        events: list[Event] = []
        for number, line in enumerate(text.split("\n"), 1):
            if not line or line.startswith("#"):
                continue
            word, _, rest = line.partition(" ")
            try:
                if word == "file":
                    files.append(read_digits(rest))
                elif word == "client":
                    clients.append(uuid.UUID(rest))
                else:
                    events.append(Event.read(line))
            except ValueError:
                raise ToolFault(f"fault line {number}") from None
        return cls(tuple(files), tuple(clients), tuple(events))

    @property
    def text(self) -> str:
        lines = [f"file {digits(it)}" for it in self.files] + [f"client {it}" for it in self.clients]
        return "".join(f"{it}\n" for it in lines + [event.text for event in self.events])

    def with_events(self, events: tuple[Event, ...]) -> Schedule:
        return replace(self, events=events)
