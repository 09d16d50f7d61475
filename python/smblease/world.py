"""Clients of a schedule, the links between them and a server, and what is on its way there (docs/FORMATS.md, "Schedules").

`World` has what is the same whichever server there is. `MachineWorld` has a server machine: a smblease.Server, or one that is
asked by lines. How the machines are called, and what becomes of the facts, is for those who use these.
"""
from __future__ import annotations

import uuid
from abc import ABC, abstractmethod
from collections import deque
from collections.abc import Callable
from dataclasses import dataclass, field
from enum import Enum
from typing import Any, Generic, Protocol, TypeVar

from smblease.client import Client, lease_key
from smblease.lines import ACCESS, SHARE, digits, note_words, out_words, read_digits, read_number, read_request, reply_words
from smblease.outs import Out, Sent
from smblease.processes import LineClients
from smblease.replies import Reply
from smblease.requests import Request
from smblease.schedules import Event, EventKind, Schedule
from smblease.steps import Refused, Step
from smblease.values import LeaseState


class Link(Enum):
    """Whether a client is connected. CUT: the connection is lost, and the client hasn't noticed."""

    DOWN = "down"
    UP = "up"
    CUT = "cut"


@dataclass
class Peer:
    """A client of a world: its link, and what is on its way on that."""

    guid: uuid.UUID
    link: Link = Link.DOWN
    requests: deque[Request] = field(default_factory=deque)
    replies: deque[Reply] = field(default_factory=deque)


class Recorder(Protocol):
    """Whoever writes down what happens: facts of the record, and remarks that say what is in the messages."""

    def fact(self, text: str) -> None: ...

    def remark(self, text: str) -> None: ...


class ClientObjects:
    """The client machines of a schedule as objects of smblease.Client.

    >>> clients = ClientObjects(Schedule((b"abc",), (uuid.UUID(int=1),), ()))
    >>> clients.step(Event.read("read 1 1")).answer
    Refused(refusal=<Refusal.NOT_OPEN: 1>)
    """

    def __init__(self, schedule: Schedule) -> None:
        self._clients = {number: Client(guid, len(schedule.files)) for number, guid in enumerate(schedule.clients, 1)}

    def step(self, event: Event) -> Step:
        """A command of the application, or that the client connects or notices that its connection is lost. ValueError is
        raised of an event that isn't laid out as one."""
        try:
            return _COMMANDS[event.kind](self._clients[event.client], event.words)
        except LookupError:
            raise ValueError(f"{event.text} is no event") from None

    def take(self, client: int, reply: Reply) -> Step:
        return self._clients[client].take(reply)


_COMMANDS: dict[EventKind, Callable[[Client, tuple[str, ...]], Step]] = {
    EventKind.OPEN: lambda client, words: client.open(read_number(words[0]), ACCESS[words[1]], SHARE[words[2]],
                                                      LeaseState.of(words[3]), durable=words[4:] == ("durable",)),
    EventKind.CLOSE: lambda client, words: client.close_file(read_number(words[0])),
    EventKind.READ: lambda client, words: client.read(read_number(words[0])),
    EventKind.FLUSH: lambda client, words: client.flush(read_number(words[0])),
    EventKind.WRITE: lambda client, words: client.write(read_number(words[0]), read_number(words[1]), read_digits(words[2])),
    EventKind.CONNECT: lambda client, words: client.connect(),
    EventKind.NOTICE: lambda client, words: client.notice(),
}
_APPLICATION = {EventKind.OPEN, EventKind.CLOSE, EventKind.READ, EventKind.FLUSH, EventKind.WRITE}
AnyPeer = TypeVar("AnyPeer", bound=Peer)
Given = TypeVar("Given")


class World(ABC, Generic[AnyPeer]):
    """One run. What a server does is for those to say that derive from this; so is how a machine is called."""

    def __init__(self, schedule: Schedule, peers: dict[int, AnyPeer], clients: ClientObjects | LineClients,
                 record: Recorder) -> None:
        self.peers = peers
        self.files = range(1, len(schedule.files) + 1)
        self._clients = clients
        self._record = record
        # what of its peer an event of the link needs, and what it does
        self._doings: dict[EventKind, tuple[Callable[[AnyPeer], object], Callable[[Event, AnyPeer], None]]] = {
            EventKind.SERVE: (lambda it: it.requests, self._serve), EventKind.TAKE: (lambda it: it.replies, self._take),
            EventKind.CUT: (lambda it: it.link is Link.UP, self._cut),
            EventKind.NOTICE: (lambda it: it.link is Link.CUT, self._notice),
            EventKind.CONNECT: (lambda it: it.link is Link.DOWN, self._connect),
            EventKind.RAW: (lambda it: it.link is Link.UP, self._stray),
        }
        for file, data in zip(self.files, schedule.files):
            record.fact(f"start {file} {digits(data)}")

    def happens(self, event: Event) -> bool:
        """Has an event happen; whether it did anything. One of a client or a file that isn't there does nothing."""
        peer = self.peers.get(event.client)
        if peer is None:
            return False
        if event.kind in _APPLICATION:
            return read_number(event.words[0]) in self.files and self._step(event.client, lambda: self._clients.step(event))
        if event.kind in (EventKind.EXPIRE, EventKind.SCAVENGE):
            return self._end_timer(event)
        may, does = self._doings[event.kind]
        if not may(peer):
            return False
        does(event, peer)
        return True

    def _called(self, call: Callable[[], Given]) -> Given:
        """What a call of a machine gives."""
        return call()

    def _step(self, client: int, call: Callable[[], Step]) -> bool:
        """What a client machine does: its requests are on their way, and its notes are facts."""
        step, peer = self._called(call), self.peers[client]
        for note in step.notes:
            self._record.fact(note_words(client, note))
        if peer.link is Link.UP:
            peer.requests.extend(step.requests)
        return bool(step.requests or step.notes) or not isinstance(step.answer, Refused)

    def _serve(self, event: Event, peer: AnyPeer) -> None:
        self._served(event.client, peer.requests.popleft())

    def _take(self, event: Event, peer: AnyPeer) -> None:
        reply = peer.replies.popleft()
        self._record.remark(f"took {event.client} {reply_words(reply)}")
        self._record.fact(f"took {event.client}")
        self._step(event.client, lambda: self._clients.take(event.client, reply))

    def _cut(self, event: Event, peer: AnyPeer) -> None:
        peer.link = Link.CUT
        peer.requests.clear()
        peer.replies.clear()
        self._record.fact(f"dropped {event.client}")
        self._dropped(event.client)

    def _notice(self, event: Event, peer: AnyPeer) -> None:
        peer.link = Link.DOWN
        self._step(event.client, lambda: self._clients.step(event))

    def _connect(self, event: Event, peer: AnyPeer) -> None:
        peer.link = Link.UP
        self._record.fact(f"joined {event.client}")
        self._joined(event.client)
        self._step(event.client, lambda: self._clients.step(event))

    def _stray(self, event: Event, peer: AnyPeer) -> None:
        request = self._meant(read_request(" ".join(event.words)))
        self._record.fact(f"strayed {event.client}")
        peer.requests.append(request)

    def _end_timer(self, event: Event) -> bool:
        file, ends = read_number(event.words[0]), self._expire if event.kind is EventKind.EXPIRE else self._scavenge
        return file in self.files and ends(event.client, file)

    @abstractmethod
    def _served(self, client: int, request: Request) -> None:
        """The server receives a request."""

    @abstractmethod
    def _joined(self, client: int) -> None:
        """A client connects."""

    @abstractmethod
    def _dropped(self, client: int) -> None:
        """A client's connection is lost."""

    @abstractmethod
    def _expire(self, client: int, file: int) -> bool:
        """The timer of the break of a client's lease runs out; whether there was such a break."""

    @abstractmethod
    def _scavenge(self, client: int, file: int) -> bool:
        """The timer of a client's oldest durable open on a file that waits for it runs out; whether there was one."""

    def _meant(self, request: Request) -> Request:
        """A raw request as this server understands it."""
        return request


class MachineWorld(World[Peer]):
    """A run with a server machine.

    >>> from smblease import Server
    >>> class Printer:
    ...     def fact(self, text):
    ...         print(text)
    ...     def remark(self, text):
    ...         print(f"# {text}")
    >>> schedule = Schedule((b"abc",), (uuid.UUID(int=1),), ())
    >>> world = MachineWorld(schedule, ClientObjects(schedule), Server(schedule.files), Printer())
    start 1 616263
    >>> for line in ("connect 1", "raw 1 create 1 r r -", "serve 1", "take 1"):
    ...     did = world.happens(Event.read(line))
    joined 1
    strayed 1
    opened 1 1
    # sent 1 created 1 1 -
    sent 1
    # took 1 created 1 1 -
    took 1
    """

    def __init__(self, schedule: Schedule, clients: ClientObjects | LineClients, server: Any, record: Recorder) -> None:
        """`server` has the methods of a smblease.Server."""
        peers = {number: Peer(guid) for number, guid in enumerate(schedule.clients, 1)}
        super().__init__(schedule, peers, clients, record)
        self._server = server

    def _give_out(self, call: Callable[..., tuple[Out, ...]], *given: object) -> None:
        for out in self._called(lambda: call(*given)):
            peer = self.peers[out.client]
            if not isinstance(out, Sent):
                self._record.fact(out_words(out))
            elif peer.link is Link.UP:
                self._record.remark(f"sent {out.client} {reply_words(out.reply)}")
                self._record.fact(out_words(out))
                peer.replies.append(out.reply)

    def _served(self, client: int, request: Request) -> None:
        self._give_out(self._server.receive, client, request)

    def _joined(self, client: int) -> None:
        self._give_out(self._server.join, client)

    def _dropped(self, client: int) -> None:
        self._give_out(self._server.cut, client)

    def _expire(self, client: int, file: int) -> bool:
        key = lease_key(self.peers[client].guid, file)
        if not self._server.breaking(client, key):
            return False
        self._record.fact(f"expired {client} {file}")
        self._give_out(self._server.expire, client, key)
        return True

    def _scavenge(self, client: int, file: int) -> bool:
        kept = self._server.kept(client, file)
        if kept is not None:
            self._give_out(self._server.scavenge, kept)
        return kept is not None
