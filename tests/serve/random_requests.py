"""Random requests of many clients, with cut connections, timers and a disk that refuses; what is answered goes into a model."""
from __future__ import annotations

import random
import struct
import uuid
from collections.abc import Callable
from dataclasses import dataclass, field
from functools import partial
from typing import Any

from smblease import CreateAnswer, CreateAsk, LeaseState, Notification, Status
from smblease.drive.headers import UNASKED, Message
from smblease.serve import asks
from smblease.serve.manager_clients import SHELLS
from smblease.serve.server import Server
from tests.serve.in_process import FrameClient, Sent
from tests.serve.plain_files import PlainFiles
from tests.serve.requests import Body, acknowledge_oplock, acknowledgment, close, create, lock, read, rename, set_info, write

# The last of the clients are pairs of connections of one ClientGuid.
CLIENTS, ALONE, FILES, LASTING = 16, 12, 8, 5
LETTERS = ("none", "R", "RH", "RW", "RWH")
STATES = ("none", "R", "RH", "RWH")
OPEN_IF, OVERWRITE_IF = 3, 5
DELETING, READING, WRITING = 0x13019F, 0x120089, 0x12019F
BATCH, LEASE = 9, 0xFF
END_OF_FILE, DISPOSITION = 20, 13


@dataclass
class Asked:
    """What is done by a request once it is answered with success."""

    body: Body
    done: Callable[[Message], None]


@dataclass
class Member:
    """One client, or one connection of it. `opens` are by their FileIds, with the names that they were opened by and whether they
    may last; `left` are those that it left, or its sister did."""

    guid: bytes
    files: int = FILES
    client: FrameClient | None = None
    opens: dict[int, tuple[str, bool]] = field(default_factory=dict)
    left: dict[int, str] = field(default_factory=dict)
    asked: dict[int, Asked] = field(default_factory=dict)
    waiting: dict[int, int] = field(default_factory=dict)
    broken: list[Message] = field(default_factory=list)


class RandomRequests:
    """Names below LASTING are of files that stay; the others are deleted and renamed, and have no durable opens, nor any of
    sisters, whose opens end when that is their turn."""

    def __init__(self, server: Server, sent: Sent, chance: random.Random) -> None:
        self.server, self._sent, self._chance = server, sent, chance
        self.files = PlainFiles()
        self.members = [Member(uuid.UUID(int=number + 1).bytes) for number in range(ALONE)]
        for number in range(ALONE, CLIENTS, 2):
            left: dict[int, str] = {}
            self.members += [Member(uuid.UUID(int=number + 1).bytes, LASTING, left=left) for _ in range(2)]
        self.statuses: dict[int, int] = {}
        self.given = 0

    def step(self) -> None:
        member = self._chance.choice(self.members)
        if member.client is None:
            member.client = FrameClient(self.server, member.guid, self._sent)
        kinds: dict[Callable[[Member], None], int] = {
            self._open: 20, self._write: 25, self._read: 15, self._close: 12, self._acknowledge: 25, self._resize: 3,
            self._lock: 2, self._rename: 3, self._delete: 3, self._cancel: 3, self._again: 3, self._cut: 1, self._expire: 1,
            self._scavenge: 1}
        self._chance.choices(list(kinds), list(kinds.values()))[0](member)
        self.take()

    # What a client asks

    def _give(self, member: Member, body: Body, done: Callable[[Message], None] = lambda message: None) -> None:
        assert member.client
        member.asked[member.client.number] = Asked(body, done)
        member.client.give(body)
        self.given += 1

    def _by_open(self, member: Member, body: Callable[[int], Body],
                 done: Callable[[int, Message], None] = lambda file_id, message: None, least: int = 0) -> None:
        """A request by one of its opens, of a file of this number or a higher one."""
        found = sorted(it for it, (name, _) in member.opens.items() if int(name[5:]) >= least)
        if found:
            file_id = self._chance.choice(found)
            self._give(member, body(file_id), partial(done, file_id))

    def _open(self, member: Member) -> None:
        number, chance = self._chance.randrange(member.files), self._chance
        name, lasts = f"file-{number}", number < LASTING and chance.random() < 0.4
        access = chance.choice((READING, WRITING, WRITING, DELETING)) if number >= LASTING else chance.choice((READING, WRITING))
        disposition, share = OVERWRITE_IF if chance.random() < 0.08 else OPEN_IF, chance.choice((7, 7, 7, 7, 5, 1))
        kind = chance.random()
        ask, level = CreateAsk(durable=lasts), 0
        if kind < 0.6:
            ask, level = CreateAsk(uuid.UUID(int=number + 1), LeaseState.of(chance.choice(LETTERS)), lasts), LEASE
        elif kind < 0.7:
            level = BATCH
        body = create(name, access, share, disposition, level=level, contexts=ask.write())
        self._give(member, body, lambda message: self._opened(member, name, message))

    def _opened(self, member: Member, name: str, message: Message) -> None:
        file_id, place, length = message.number(128, 8), message.number(144, 4), message.number(148, 4)
        granted = CreateAnswer.read(message.part(place, length) if length else b"")
        self.files.create(name, file_id, message.number(68, 4), message.number(112, 8))
        member.left.pop(file_id, None)
        member.opens[file_id] = (name, granted.durable)

    def _again(self, member: Member) -> None:
        """An open that was left behind, which its client asks for."""
        if member.left:
            file_id, name = self._chance.choice(sorted(member.left.items()))
            key = uuid.UUID(int=int(name[5:]) + 1)
            body = create(name, level=LEASE, contexts=CreateAsk(key, reconnect=file_id).write())
            self._give(member, body, lambda message: self._opened(member, name, message))

    def _write(self, member: Member) -> None:
        offset, data = self._chance.randrange(3000), self._chance.randbytes(self._chance.choice((0, 1, 100, 2000)))
        self._by_open(member, lambda it: write(it, offset, data), lambda it, _: self.files.write(it, offset, data))

    def _read(self, member: Member) -> None:
        self._by_open(member, lambda it: read(it, 6000), self._has_read)

    def _has_read(self, file_id: int, message: Message) -> None:
        assert message.part(80, message.number(68, 4)) == self.files.read(file_id, 0, 6000)

    def _close(self, member: Member) -> None:
        self._by_open(member, close, lambda it, _: self._gone(member, it))

    def _gone(self, member: Member, file_id: int) -> None:
        member.opens.pop(file_id, None)
        self.files.close(file_id)

    def _resize(self, member: Member) -> None:
        size = self._chance.randrange(5000)
        self._by_open(member, lambda it: set_info(it, END_OF_FILE, struct.pack("<Q", size)),
                      lambda it, _: self.files.resize(it, size))

    def _lock(self, member: Member) -> None:
        flags, offset = self._chance.choice((17, 18, 4)), self._chance.randrange(3000)
        self._by_open(member, lambda it: lock(it, flags, offset, 10))

    def _rename(self, member: Member) -> None:
        name = f"file-{self._chance.randrange(LASTING, FILES)}"
        self._by_open(member, lambda it: rename(it, name, False), lambda it, _: self.files.rename(it, name), LASTING)

    def _delete(self, member: Member) -> None:
        self._by_open(member, lambda it: set_info(it, DISPOSITION, b"\1"), lambda it, _: self.files.delete(it), LASTING)

    def _acknowledge(self, member: Member) -> None:
        """What its oldest break asks for, or something else, or nothing as yet."""
        if member.broken and self._chance.random() < 0.8:
            notice = member.broken.pop(0)
            if notice.number(64, 2) == 24:
                self._give(member, acknowledge_oplock(notice.number(72, 8), notice.number(66, 1)))
                return
            due = Notification.read(notice.data[64:])
            letters = str(due.new) if self._chance.random() < 0.9 else self._chance.choice(STATES)
            self._give(member, acknowledgment(due.key, letters))

    def _cancel(self, member: Member) -> None:
        if member.waiting and member.client:
            member.client.cancel(self._chance.choice(sorted(member.waiting.values())))

    # What else happens

    def _cut(self, member: Member) -> None:
        """The opens that were durable once may be left behind: the server knows. With a sister they aren't."""
        assert member.client
        has_sister = any(it.client and it is not member and it.guid == member.guid for it in self.members)
        for file_id, (_, lasts) in list(member.opens.items()):
            if not lasts or has_sister:
                self._gone(member, file_id)
        member.asked, member.waiting, member.broken = {}, {}, []
        member.client.cut()
        member.client = None
        for file_id, (name, _) in member.opens.items():
            if file_id in self.server.opens:
                member.left[file_id] = name
        member.opens = {}

    def _expire(self, member: Member) -> None:
        """The timer of one of its breaks runs out: what is open under the key is gone before anything comes of that."""
        client = self.server.clients.of_guid(member.guid)
        breaking = [key for key in client.leases if self.server.host.manager.breaking(client.number, key)] if client else []
        if client and breaking:
            key = self._chance.choice(sorted(breaking))
            for file_id in [it.file_id for it in client.leases[key].opens]:
                for one in self.members:
                    one.opens.pop(file_id, None)
                self.files.close(file_id)
            assert self.server.leases.expire(client, key)

    def _scavenge(self, member: Member) -> None:
        if member.left:
            self.server.scavenge(self._chance.choice(sorted(member.left)))

    # What comes back

    def take(self) -> None:
        """All that was sent, in its order."""
        owners = {id(it.client): it for it in self.members if it.client}
        while self._sent:
            client, message = self._sent.pop(0)
            if id(client) in owners:
                self._take(owners[id(client)], message)

    def _take(self, member: Member, message: Message) -> None:
        if message.identifier == UNASKED:
            if message.number(64, 2) == 24 or message.number(68, 4):
                member.broken.append(message)
        elif message.status == Status.PENDING:
            member.waiting[message.identifier] = message.number(32, 8)
        else:
            member.waiting.pop(message.identifier, None)
            asked = member.asked.pop(message.identifier)
            self.statuses[message.status] = self.statuses.get(message.status, 0) + 1
            if message.status == Status.SUCCESS:
                asked.done(message)

    # What has to be so

    def check(self) -> None:
        """The manager's opens are the shell's, but for those that the shell has for a moment or is closing; and what waits was
        asked for."""
        host: Any = self.server.host
        asking = [it for it in host.waiting if isinstance(it.asked, asks.Asked)]
        closing = {it.asked.closes for it in asking}
        ours = {it.file_id: it.file_id not in self.server.kept for it in self.server.opens.values() if it.client}
        listed = {it.file_id: it.connected for it in host.manager.opens() if it.client < SHELLS}
        assert set(listed) - closing == set(ours) - closing
        assert all(ours[it] is listed[it] for it in set(ours) & set(listed))
        known = [it for it in asking if it not in host.stepped_back]
        assert host.still_waiting() == {(it.asked.client.number, it.tag, it.asked.file) for it in known}
        pending = {task for it in self.members if it.client for task in it.client.connection.tasks}
        assert {it for it in asking if it.asked.closes is None} | {it for it in host.waiting if it not in asking} <= pending
        for member in self.members:
            if member.client:
                assert set(member.asked) == set(member.waiting)

    def end(self) -> None:
        """Everybody is cut, and what they left ends."""
        for member in self.members:
            if member.client:
                self._cut(member)
                self.take()
        for file_id in list(self.server.opens):
            self.server.scavenge(file_id)
