"""The core of a file server over a manager of leases: files in a folder, what stands behind FileIds, what is kept under tags, and
timers. play_file_server.py plays scripts with it.
"""
import os
import re
from dataclasses import dataclass, field

from smblease import Manager
from smblease.manager_decisions import (Acknowledged, Breaks, Closed, Decision, Decisions, Ended, GoesOn, LeftBehind,
                                        NotAcknowledged, Opened, Refused, Waits)


@dataclass
class Request:
    """What is to be done when the request under a tag goes on."""

    word: str
    file: str
    file_id: int = 0
    offset: int = 0
    length: int = 0
    text: str = ""


@dataclass
class Handle:
    """What stands behind a FileId: a descriptor of its own, which is closed when the open is gone."""

    file: str
    descriptor: int
    is_timed: bool = False


def about_lease(decision: Decision) -> str:
    """What a decision says of a lease: its key by its letter, and states."""
    if isinstance(decision, Breaks):
        it = decision.notification
        return f" key {chr(it.key.bytes[0])} {it.current} to {it.new}" + (f" timer {decision.timer}" if decision.timer else "")
    if isinstance(decision, Acknowledged):
        return f" key {chr(decision.response.key.bytes[0])} {decision.response.state}"
    if isinstance(decision, Opened):
        lease = decision.answer
        return (f" key {chr(lease.key.bytes[0])} {lease.state}" if lease.key else "") + (" durable" if lease.durable else "")
    return ""


def show(decision: Decision) -> None:
    word = re.sub("(?<=.)(?=[A-Z])", "-", type(decision).__name__).lower()
    names = {"client": "client", "tag": "tag", "id": "file_id"}
    numbers = "".join(f" {it} {getattr(decision, name)}" for it, name in names.items() if hasattr(decision, name))
    status = f" {decision.status:08x}" if isinstance(decision, (Refused, NotAcknowledged)) else ""
    print(f"{word}{numbers}{about_lease(decision)}{status}")


@dataclass
class FileServer:
    """A file's number is its place among the names, from 1."""

    folder: str
    manager: Manager
    names: list[str] = field(default_factory=list)
    waiting: dict[tuple[int, int], Request] = field(default_factory=dict)
    handles: dict[int, Handle] = field(default_factory=dict)

    def number_of(self, name: str) -> int:
        """Names are plain ones: none leads out of the folder."""
        if not re.fullmatch("[a-z0-9_-]{1,31}", name):
            raise ValueError("a name is of lowercase letters, digits, _ and -")
        if name not in self.names:
            self.names.append(name)
        return self.names.index(name) + 1

    def descriptor_of(self, name: str) -> int:
        return os.open(f"{self.folder}/{self.names[self.number_of(name) - 1]}", os.O_RDWR | os.O_CREAT | os.O_NOFOLLOW, 0o600)

    # ---- decisions ----

    def go_on(self, request: Request) -> None:
        """A read, a write or a truncation takes effect here, at its place in the order of the decisions."""
        descriptor = self.handles[request.file_id].descriptor
        if request.word == "read":
            print("  read", os.pread(descriptor, request.length, request.offset).decode("ascii"))
        elif request.word == "write":
            os.pwrite(descriptor, request.text.encode("ascii"), request.offset)
        else:
            os.truncate(descriptor, request.length)

    def answer_create(self, file_id: int, request: Request) -> None:
        """There is a new open, or one that was left behind is its client's again."""
        if file_id not in self.handles:
            self.handles[file_id] = Handle(request.file, self.descriptor_of(request.file))
        self.handles[file_id].is_timed = False

    def carry_out(self, decision: Decision) -> None:
        show(decision)
        if isinstance(decision, Ended):
            os.close(self.handles.pop(decision.file_id).descriptor)
        elif isinstance(decision, LeftBehind):
            self.handles[decision.file_id].is_timed = True
            print(f"  timer of id {decision.file_id}")
        elif not isinstance(decision, (Breaks, Waits, Acknowledged, NotAcknowledged)):
            request = self.waiting.pop((decision.client, decision.tag))
            if isinstance(decision, Opened):
                self.answer_create(decision.file_id, request)
            elif isinstance(decision, GoesOn):
                self.go_on(request)
            elif isinstance(decision, Closed):
                os.close(self.handles.pop(request.file_id).descriptor)

    def after(self, decisions: Decisions) -> None:
        """Each decision takes effect before the next one."""
        for decision in decisions:
            self.carry_out(decision)

    # ---- what else happens ----

    def cut(self, client: int) -> None:
        """Nobody waits for the client's answers any longer."""
        self.after(self.manager.cut(client))
        self.waiting = {it: request for it, request in self.waiting.items() if it[0] != client}

    def cancel(self, client: int, tag: int) -> None:
        request = self.waiting.get((client, tag))
        if request:
            self.after(self.manager.withdraw(client, tag, self.number_of(request.file)))

    def end_break(self, timer: int) -> None:
        """The timer of a break runs out. Where the break has ended, the manager decides nothing."""
        self.after(self.manager.run_out(timer))

    def end_open(self, file_id: int) -> None:
        """The timer of a durable open runs out, if it is still running."""
        if file_id in self.handles and self.handles[file_id].is_timed:
            self.after(self.manager.scavenge(file_id))
        else:
            print("  no such timer")
