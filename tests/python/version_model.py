"""What leases and durable opens of version 2 carry: a plain model of include/smblease_versions.h, without the library."""
from __future__ import annotations

from dataclasses import dataclass, field
from typing import Optional, Union

from smblease.manager_decisions import Acknowledged, Breaks, Closed, Decision, Ended, Opened, Refused, Withdrawn

EPOCHS = 1 << 16
NAME_NOT_FOUND, DUPLICATE, NOT_AVAILABLE = 0xC0000034, 0xC000022A, 0xC0000467
NO_GUID = bytes(16)


@dataclass
class Create:
    """What a create asks: an epoch and a parent where its lease is of version 2; the CreateGuid of DH2Q or DH2C."""

    epoch: Optional[int] = None
    parent: Optional[bytes] = None
    guid: Optional[bytes] = None
    reconnects: Optional[int] = None


@dataclass
class Lease:
    epoch: Optional[int]
    parent: Optional[bytes]
    state: int
    breaking: bool
    opens: set[int] = field(default_factory=set)

    def rise(self) -> None:
        if self.epoch is not None:
            self.epoch = (self.epoch + 1) % EPOCHS


@dataclass
class Carried:
    """What an answer carries; or a notice, which has an epoch alone."""

    epoch: Optional[int] = None
    parent: Optional[bytes] = None
    has_second_durable: bool = False


Key = tuple[int, bytes]


class Model:
    def __init__(self) -> None:
        self.asked: dict[tuple[int, int], Union[Create, int]] = {}
        self.leases: dict[Key, Lease] = {}
        # client, key, CreateGuid
        self.opens: dict[int, tuple[int, Optional[bytes], Optional[bytes]]] = {}

    def refusal(self, client: int, create: Create, replay: bool) -> tuple[Optional[int], set[int]]:
        """The status by which it is refused; and of these opens one is answered again."""
        if create.reconnects is not None:
            there = self.opens.get(create.reconnects)
            other = there is not None and create.guid is not None and (there[2] or NO_GUID) != create.guid
            return (NAME_NOT_FOUND if other else None), set()
        if create.guid is None:
            return None, set()
        same = {it for it, (owner, _, guid) in self.opens.items() if owner == client and guid == create.guid}
        if same:
            return (None, same) if replay else (DUPLICATE, set())
        waits = any(owner == client and isinstance(it, Create) and it.guid == create.guid and it.reconnects is None
                    for (owner, _), it in self.asked.items())
        return (NOT_AVAILABLE if replay and waits else None), set()

    def follow(self, decision: Decision) -> Optional[Carried]:
        if isinstance(decision, Opened):
            return self._opened(decision)
        if isinstance(decision, Closed):
            file_id = self.asked.pop((decision.client, decision.tag), None)
            if isinstance(file_id, int):
                self._end(file_id)
        elif isinstance(decision, (Refused, Withdrawn)):
            self.asked.pop((decision.client, decision.tag), None)
        elif isinstance(decision, Breaks):
            return self._broken(decision)
        elif isinstance(decision, Acknowledged):
            lease = self.leases[decision.client, decision.response.key.bytes]
            lease.state, lease.breaking = decision.response.state.value, False
        elif isinstance(decision, Ended):
            self._end(decision.file_id)
        return None

    def _opened(self, decision: Opened) -> Carried:
        create = self.asked.pop((decision.client, decision.tag), Create())
        assert isinstance(create, Create)
        answer = decision.answer
        key = answer.key.bytes if answer.key else None
        is_second = answer.durable and create.guid is not None and create.reconnects is None
        keeps = create.guid if answer.durable or create.reconnects is not None else None
        self.opens.setdefault(decision.file_id, (decision.client, key, keeps))
        if key is None:
            return Carried(has_second_durable=is_second)
        lease = self._granted((decision.client, key), create, answer.state.value, answer.breaking)
        lease.opens.add(decision.file_id)
        return Carried(lease.epoch, lease.parent, is_second)

    def _granted(self, name: Key, create: Create, state: int, breaking: bool) -> Lease:
        lease = self.leases.get(name)
        if lease is None:
            lease = self.leases[name] = Lease(create.epoch, create.parent, state, breaking)
            lease.rise()
        elif not lease.breaking and lease.state != state:
            lease.state = state
            lease.rise()
        return lease

    def _broken(self, decision: Breaks) -> Carried:
        notice = decision.notification
        lease = self.leases[decision.client, notice.key.bytes]
        lease.rise()
        if notice.ack_required:
            lease.breaking = True
        else:
            lease.state = notice.new.value
        return Carried(lease.epoch)

    def _end(self, file_id: int) -> None:
        client, key, _ = self.opens.pop(file_id, (0, None, None))
        if key is None:
            return
        lease = self.leases[client, key]
        lease.opens.discard(file_id)
        if not lease.opens:
            del self.leases[client, key]

    def forget(self, client: int) -> None:
        self.asked = {name: it for name, it in self.asked.items() if name[0] != client}

    def leave(self, client: int, tags: list[int]) -> None:
        for tag in tags:
            self.asked.pop((client, tag), None)
