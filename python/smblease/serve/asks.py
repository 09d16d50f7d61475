"""What tasks ask the manager.

A task is a generator that handles one request of a connection. It yields what it asks in a client's name, and goes on with what
came of that, at once or when the manager decides."""
from __future__ import annotations

from collections.abc import Callable, Generator
from dataclasses import dataclass
from typing import Any, NamedTuple, TypeVar, Union
from uuid import UUID

from smblease import Access, Acknowledgment, CreateAnswer, CreateAsk, Extent, Fault, Manager, Response, Share, Versions
from smblease.contexts import NO_ASK
from smblease.manager_decisions import Decisions
from smblease.serve.node import Node
from smblease.serve.opens import ManagerClient, Open
from smblease.serve.packets import Answer
from smblease.serve.status_error import StatusError

Found = TypeVar("Found")


class StartOver(Exception):
    """What a task asked of a file is to be asked again, of what has that name by then."""


def nothing() -> None:
    """The effect of what has none."""


@dataclass(frozen=True)
class Wanted:
    """What a create asks the manager for, and what version 2 adds to that: its create contexts (2.2.13.2), of either version, and
    the milliseconds that an open of DH2Q lasts without its connection."""

    ask: CreateAsk = NO_ASK
    contexts: bytes = b""
    timeout: int = 0


NOTHING_WANTED = Wanted()


class Granted(NamedTuple):
    """A create that the manager granted, and the create contexts of its answer (2.2.14.2)."""

    file_id: int
    answer: CreateAnswer
    contexts: bytes


class Asked:
    """`call` gives it to a manager under a tag; `effect` is done where it goes on, at that place in the order of decisions. It
    may wait on the file, where it is about one."""

    __slots__ = ("client", "node", "call", "effect", "is_new_open", "closes", "is_free", "starts_over", "timeout")

    def __init__(self, client: ManagerClient, node: Node | None, call: Callable[[Manager, int], Decisions],
                 effect: Callable[[], object] = nothing, is_new_open: bool = False, closes: int | None = None,
                 is_free: Callable[[Manager], bool] | None = None) -> None:
        """`closes` is the FileId of what it closes, which nobody takes back. `is_free`: whether it may be done without a call."""
        self.client, self.node, self.call, self.effect = client, node, call, effect
        self.is_new_open, self.closes, self.is_free = is_new_open, closes, is_free
        # whether it may be taken back while it waits, by StartOver
        self.starts_over = False
        self.timeout = 0

    def note(self, versions: Versions, tag: int) -> None:
        """What follows versions is told before the manager."""
        if self.closes is not None:
            versions.closing(self.client.number, tag, self.closes)

    @property
    def file(self) -> int:
        return self.node.number if self.node else 0


class Creating(Asked):
    """A create, whose CreateGuid its client may have used by now (3.3.5.9.10)."""

    __slots__ = ("_contexts",)

    def __init__(self, client: ManagerClient, node: Node, access: Access, share: Share, wanted: Wanted) -> None:
        ask = wanted.ask
        super().__init__(client, node, lambda manager, tag: manager.create(client.number, tag, node.number, access, share, ask),
                         is_new_open=ask.reconnect is None)
        self._contexts, self.timeout = wanted.contexts, wanted.timeout

    def note(self, versions: Versions, tag: int) -> None:
        status = versions.asked(self.client.number, tag, self._contexts).status
        if status is not None:
            raise StatusError(status)


class Changing(Asked):
    """Other keys on the file than this one of the client's give up as much, and then it goes on. Without a key none is spared.
    `asking` is whose request it is: where the client, that of an open, goes with that, it waits in this one's name."""

    __slots__ = ("asking", "_extent")

    def __init__(self, client: ManagerClient, asking: ManagerClient, key: UUID | None, node: Node, extent: Extent,
                 effect: Callable[[], object] = nothing) -> None:
        super().__init__(client, node, lambda manager, tag: manager.change(client.number, tag, key, node.number, extent), effect)
        self.asking, self._extent = asking, extent

    def in_its_own_name(self) -> Changing:
        """The same, once the client and what it had open are gone."""
        assert self.node
        return Changing(self.asking, self.asking, None, self.node, self._extent, self.effect)


@dataclass(frozen=True, eq=False)
class Emptying:
    """Other keys on the file than this one of the client's give up all, before a create that empties it: by one break each, or
    where creates waited for them already, handles first. Such creates step back, and start over after this."""

    client: ManagerClient
    key: UUID | None
    node: Node

    def call(self, manager: Manager, has_others: bool) -> Decisions:
        """Has them give up what they don't yet."""
        extent = Extent.HANDLES if has_others and not self._is_given_up(manager, Extent.HANDLES) else Extent.ALL
        return manager.give_up(self.client.number, self.key, self.node.number, extent)

    def is_over(self, manager: Manager) -> bool:
        """Whether none is in the way."""
        return self._is_given_up(manager, Extent.ALL)

    def _is_given_up(self, manager: Manager, extent: Extent) -> bool:
        return manager.given_up(self.client.number, self.key, self.node.number, extent)


@dataclass(frozen=True)
class Acknowledging:
    """An acknowledgment, or none where it can't be read. It has no tag, and is decided at once."""

    client: ManagerClient
    message: Acknowledgment | None


@dataclass(frozen=True)
class Meanwhile:
    """What takes its time on another thread, and changes nothing that anybody sees."""

    work: Callable[[], None]


@dataclass(frozen=True, eq=False)
class Pause:
    """What waits for something that isn't the manager's, until it is resumed or taken back."""


Yielded = Union[Asked, Emptying, Acknowledging, Meanwhile, Pause]
Waits = Generator[Yielded, Any, Found]
Handling = Waits[Answer]
Steps = Waits[None]


def to_open(client: ManagerClient, node: Node, access: Access, share: Share, wanted: Wanted, starts_over: bool = False) -> Asked:
    asked = Creating(client, node, access, share, wanted)
    asked.starts_over = starts_over
    return asked


def to_read(client: ManagerClient, opened: Open, effect: Callable[[], bytes]) -> Asked:
    return Asked(client, opened.node, lambda manager, tag: manager.read(client.number, tag, opened.file_id), effect,
                 is_free=lambda manager: manager.may_read(client.number, opened.file_id))


def to_write(client: ManagerClient, node: Node, file_id: int, effect: Callable[[], object], fits: bool = True) -> Asked:
    """Asks for a change of the file, which `effect` makes."""
    return Asked(client, node, lambda manager, tag: manager.write(client.number, tag, file_id, fits), effect,
                 is_free=lambda manager: fits and manager.may_write(client.number, file_id))


def to_close(client: ManagerClient, node: Node, file_id: int, effect: Callable[[], object] = nothing) -> Asked:
    return Asked(client, node, lambda manager, tag: manager.close_open(client.number, tag, file_id), effect, closes=file_id)


def opening(client: ManagerClient, node: Node, access: Access, share: Share,
            wanted: Wanted = NOTHING_WANTED) -> Waits[Granted]:
    granted = yield to_open(client, node, access, share, wanted)
    assert isinstance(granted, Granted)
    return granted


def writing(client: ManagerClient, node: Node, file_id: int, effect: Callable[[], object], fits: bool = True) -> Steps:
    yield to_write(client, node, file_id, effect, fits)


def closing(client: ManagerClient, node: Node, file_id: int) -> Steps:
    yield to_close(client, node, file_id)


def refused(client: ManagerClient, file_id: int, call: Callable[[Manager, int, int, int], Decisions]) -> Steps:
    """A request by a FileId that the shell doesn't know. The manager refuses it; what waits may go on by that."""
    yield Asked(client, None, lambda manager, tag: call(manager, client.number, tag, file_id),
                closes=file_id if call is Manager.close_open else None)


def acknowledging(client: ManagerClient, body: bytes) -> Waits[Response]:
    try:
        message: Acknowledgment | None = Acknowledgment.read(body)
    except Fault:
        message = None
    response = yield Acknowledging(client, message)
    assert isinstance(response, Response)
    return response
