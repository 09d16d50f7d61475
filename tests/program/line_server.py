"""`leasecheck server` as an object."""
from __future__ import annotations

import uuid

from smblease.lines import digits, read_out, request_words
from smblease.outs import Out
from smblease.processes import LineMachine, LineProcess
from smblease.requests import Request
from smblease.schedules import Schedule
from smblease.values import Rules


def server_process(program: str, schedule: Schedule, rules: Rules | None = None) -> LineProcess:
    """The server machine of a schedule, which is given rules or none."""
    files = [f"file {digits(data)}" for data in schedule.files]
    return LineProcess(program, "server", files if rules is None else [f"rules {rules}", *files])


class LineServer(LineMachine):
    """The server machine of a run, which is asked by lines; its methods are those of smblease.Server."""

    def _outs(self, line: str) -> tuple[Out, ...]:
        return tuple(map(read_out, self.ask(line)[0]))

    def join(self, client: int) -> tuple[Out, ...]:
        return self._outs(f"join {client}")

    def cut(self, client: int) -> tuple[Out, ...]:
        return self._outs(f"cut {client}")

    def receive(self, client: int, request: Request) -> tuple[Out, ...]:
        return self._outs(f"receive {client} {request_words(request)}")

    def expire(self, client: int, key: uuid.UUID) -> tuple[Out, ...]:
        return self._outs(f"expire {client} {key.bytes.hex()}")

    def scavenge(self, file_id: int) -> tuple[Out, ...]:
        return self._outs(f"scavenge {file_id}")

    def breaking(self, client: int, key: uuid.UUID) -> bool:
        return self.ask(f"breaking {client} {key.bytes.hex()}")[1] == "yes"

    def kept(self, client: int, file: int) -> int | None:
        word, _, file_id = self.ask(f"kept {client} {file}")[1].partition(" ")
        return int(file_id) if word == "fid" else None
