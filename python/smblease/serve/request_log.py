"""A log of what is asked and answered, a line for each request."""
from __future__ import annotations

import json
import sys
from dataclasses import asdict, dataclass, field
from datetime import datetime, timezone
from typing import IO, TYPE_CHECKING

from smblease.drive.headers import HEADER, Command, Unreadable, create_name
from smblease.faults import ToolFault
from smblease.manager_decisions import Acknowledged, Breaks, Decision, Opened, Waits
from smblease.serve.packets import Answer
from smblease.serve.request import Request
from smblease.serve.status_error import StatusError, name_of

if TYPE_CHECKING:
    from smblease.serve.chains import Pending

STANDARD_ERROR = "-"
# Where a request has an offset of eight bytes, and where a length of four or eight.
RANGES = {Command.READ: (HEADER + 8, HEADER + 4, 4), Command.WRITE: (HEADER + 8, HEADER + 4, 4),
          Command.LOCK: (HEADER + 24, HEADER + 32, 8)}


@dataclass(frozen=True)
class Broken:
    """A break that was decided for this request, whoever is asked for it."""

    client: int
    key: str
    was: str
    becomes: str


@dataclass
class Entry:
    """What is known of a request once it is answered; None where there is nothing to be said."""

    time: str
    # by its number in the record
    client: int | None
    address: str
    command: str
    message: int
    name: str | None
    offset: int | None
    length: int | None
    status: str
    # the state that the manager grants, or leaves after an acknowledgment
    state: str | None = None
    # for the manager, or for anything else after STATUS_PENDING
    waited: bool = False
    # what was wanted to go wrong
    fault: str | None = None
    breaks: list[Broken] = field(default_factory=list)

    def add(self, decision: Decision) -> None:
        if isinstance(decision, Waits):
            self.waited = True
        elif isinstance(decision, Breaks):
            found = decision.notification
            self.breaks.append(Broken(decision.client, found.key.hex, str(found.current), str(found.new)))
        elif isinstance(decision, Opened) and decision.answer.key:
            self.state = str(decision.answer.state)
        elif isinstance(decision, Acknowledged):
            self.state = str(decision.response.state)

    @property
    def text(self) -> str:
        client = "-" if self.client is None else str(self.client)
        words = [self.time, "client", client, self.address, self.command, str(self.message)]
        words += [] if self.name is None else [json.dumps(self.name, ensure_ascii=False)]
        words += [] if self.offset is None else [f"{self.length} at {self.offset}"]
        words += [self.status, *([] if self.state is None else [self.state]), *(["waited"] if self.waited else [])]
        words += [] if self.fault is None else ["fault", self.fault]
        words += [f"breaks client {it.client} {it.key} {it.was} to {it.becomes}" for it in self.breaks]
        return " ".join(words)


class RequestLog:
    def __init__(self, path: str, is_json: bool) -> None:
        self._path, self._is_json = path, is_json
        try:
            # pylint: disable-next=consider-using-with  # it is closed by `close`
            self._stream: IO[str] = sys.stderr if path == STANDARD_ERROR else open(
                path, "w", encoding="utf-8", errors="backslashreplace", buffering=1)
        except OSError as fault:
            raise ToolFault(f"{path}: {fault.strerror}") from None

    @staticmethod
    def begun(pending: Pending) -> None:
        """What may be gone by the time of the answer, and what is decided until then."""
        request = pending.request
        pending.decided = []
        pending.number, pending.name = request.connection.peer.number, _name(request)

    def answered(self, pending: Pending, answer: Answer) -> None:
        request = pending.request
        connection, message = request.connection, request.message
        offset, length = _range(request)
        number = pending.number if connection.peer.number is None else connection.peer.number
        entry = Entry(datetime.now(timezone.utc).isoformat(timespec="microseconds"), number, connection.place, message.name,
                      message.identifier, pending.name, offset, length, name_of(answer.status),
                      waited=pending.async_id is not None, fault=request.fault.value if request.fault else None)
        for decision in pending.decided or ():
            entry.add(decision)
        self._write(json.dumps(asdict(entry), ensure_ascii=False) if self._is_json else entry.text)

    def _write(self, line: str) -> None:
        try:
            self._stream.write(f"{line}\n")
        except OSError as fault:
            raise ToolFault(f"{self._path}: {fault.strerror}") from None

    def close(self) -> None:
        if self._path != STANDARD_ERROR:
            self._stream.close()


def _name(request: Request) -> str | None:
    """That of the file: of a CREATE as it is asked for, else the name that the open's file has. None where there is no file."""
    try:
        if request.message.command is Command.CREATE:
            return create_name(request.message)
        opened = request.server.opens.get(request.file_id()) if request.message.file_id else None
    except (StatusError, Unreadable):
        return None
    return opened.node.path if opened else None


def _range(request: Request) -> tuple[int | None, int | None]:
    offset, length, size = RANGES.get(request.message.command or Command.NEGOTIATE, (0, 0, 0))
    try:
        return (request.message.number(offset, 8), request.message.number(length, size)) if size else (None, None)
    except Unreadable:
        return None, None
