"""What `replay --explain` has to say of events that do nothing, by a world whose links and queues are kept here, with client
machines and a server machine that are asked by lines."""
from __future__ import annotations

import contextlib
from typing import Optional

from smblease.client import lease_key
from smblease.processes import LineClients, client_process
from smblease.replies import Reply
from smblease.schedules import Event, EventKind, Schedule
from smblease.steps import Done, Refused, Step
from smblease.world import Link, MachineWorld
from tests.program.line_server import LineServer, server_process

REFUSALS = {
    "notopen": "the client has no such file, or no handle on it",
    "busy": "an answer of the server has to come first",
    "offline": "the client isn't connected, or its open isn't connected again yet",
    "toolong": "the write ends past the limit of a file",
    "denied": "the access of the open doesn't allow it",
    "usedup": "no number is left for it",
}
COMMANDS = {EventKind.OPEN, EventKind.CLOSE, EventKind.READ, EventKind.WRITE, EventKind.FLUSH}


class Asked:
    """Client machines, and what the last step of one of them was."""

    def __init__(self, clients: LineClients) -> None:
        self.clients = clients
        self.last: Optional[Step] = None

    def step(self, event: Event) -> Step:
        self.last = self.clients.step(event)
        return self.last

    def take(self, client: int, reply: Reply) -> Step:
        return self.clients.take(client, reply)


class Facts:
    """The record of a world, with what is said of events that did nothing."""

    def __init__(self) -> None:
        self.lines: list[str] = []

    def fact(self, text: str) -> None:
        self.lines.append(text)

    def remark(self, text: str) -> None:
        """What is in the messages isn't told."""


def event_lines(text: str) -> list[int]:
    """The numbers of the lines that hold events, as they stand in a text that is a schedule."""
    return [number for number, line in enumerate(text.split("\n"), 1)
            if line and not line.startswith("#") and line.split(" ")[0] not in ("file", "client")]


class ExplainedWorld(MachineWorld):
    """A world that says what stands in the way of an event."""

    def __init__(self, schedule: Schedule, asked: Asked, server: LineServer, facts: Facts) -> None:
        super().__init__(schedule, asked, server, facts)  # type: ignore[arg-type]
        self.asked, self.server = asked, server

    def of_link(self, event: Event) -> str:
        client, link = event.client, self.peers[event.client].link
        if event.kind is EventKind.NOTICE:
            return {Link.DOWN: f"client {client} isn't connected", Link.UP: f"client {client} is connected", Link.CUT: ""}[link]
        if event.kind is EventKind.CONNECT:
            return {Link.DOWN: "", Link.UP: f"client {client} is connected",
                    Link.CUT: f"client {client} hasn't noticed that its connection was lost"}[link]
        if event.kind in (EventKind.CUT, EventKind.RAW) and link is not Link.UP:
            return f"client {client} isn't connected"
        return ""

    def of_timer(self, event: Event) -> str:
        client, file = event.client, int(event.words[0])
        if event.kind is EventKind.SCAVENGE:
            kept = file in self.files and self.server.kept(client, file) is not None
            return "" if kept else f"no open of client {client} of file {file} is kept without a connection"
        if file not in self.files:
            return f"there is no file {file}"
        breaks = self.server.breaking(client, lease_key(self.peers[client].guid, file))
        return "" if breaks else f"no break of the lease of client {client} of file {file} waits"

    def before(self, event: Event) -> str:
        """Why an event that is no command will do nothing; nothing where it will do something."""
        client = event.client
        if event.kind is EventKind.SERVE:
            return "" if self.peers[client].requests else f"no request of client {client} is on its way"
        if event.kind is EventKind.TAKE:
            return "" if self.peers[client].replies else f"no message to client {client} is on its way"
        if event.kind in (EventKind.EXPIRE, EventKind.SCAVENGE):
            return self.of_timer(event)
        return self.of_link(event)

    def commanded(self, event: Event) -> str:
        """Has a command happen, and gives the words of the remark."""
        client, file = event.client, int(event.words[0])
        self.asked.last = None
        self.happens(event)
        if self.asked.last is None:
            return f"was refused as notopen: {REFUSALS['notopen']}"
        answer = self.asked.last.answer
        if isinstance(answer, Refused):
            name = answer.refusal.name.lower().replace("_", "")
            return f"was refused as {name}: {REFUSALS[name]}"
        if event.kind is EventKind.FLUSH and isinstance(answer, Done):
            return f"did nothing: client {client} has no unsent write of file {file}"
        return ""

    def explained(self, event: Event) -> str:
        """Has an event happen, and gives the words of the remark; nothing where it did something."""
        if event.client not in self.peers:
            return f"did nothing: there is no client {event.client}"
        if event.kind in COMMANDS:
            return self.commanded(event)
        why = self.before(event)
        if not why:
            self.happens(event)
        return why and f"did nothing: {why}"


def explained_record(program: str, text: str) -> str:
    """The record of a schedule's run with the remarks, as it has to be."""
    schedule, facts = Schedule.read(text), Facts()
    with contextlib.closing(LineClients(client_process(program, schedule))) as clients, \
            contextlib.closing(LineServer(server_process(program, schedule))) as server:
        world = ExplainedWorld(schedule, Asked(clients), server, facts)
        for number, event in zip(event_lines(text), schedule.events):
            words = world.explained(event)
            if words:
                facts.lines.append(f"# line {number} {words}")
    return "\n".join([*facts.lines, "# safe", ""])
