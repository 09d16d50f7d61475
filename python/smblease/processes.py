"""Machines that speak lines (docs/FORMATS.md): processes of `leasecheck client` and `leasecheck server`, asked as objects."""
from __future__ import annotations

import logging
import subprocess
import tempfile
from collections.abc import Sequence
from typing import Protocol

from smblease.faults import ToolFault
from smblease.lines import read_answer, read_note, read_request, reply_words
from smblease.replies import Reply
from smblease.schedules import Event, Schedule
from smblease.steps import Step

LOG = logging.getLogger(__name__)
SECONDS_TO_END = 5


class Speaker(Protocol):
    """Whoever answers a machine's line with lines, the last of them `answer ..` or `fault ..`."""

    def say(self, line: str) -> list[str]:
        """Gives a line; what is answered."""

    def close(self) -> None:
        """Ends it."""


class LineProcess:
    """A process that holds the machines of a run. `task` is `client` or `server`; the lines of its set-up have no answers.

    >>> from smblease.program import find_program
    >>> process = LineProcess(find_program(), "client", ["files 1", "client 11111111-1111-1111-1111-111111111111"])
    >>> process.say("read 1 1")
    ['answer refused notopen']
    >>> process.close()
    """

    def __init__(self, program: str, task: str, setup: Sequence[str] = ()) -> None:
        self._task = task
        # Standard error is a file: a pipe that nobody reads would fill with the reasons of refused lines.
        with tempfile.NamedTemporaryFile() as errors:
            try:
                # pylint: disable-next=consider-using-with
                self._process = subprocess.Popen([program, task], stdin=subprocess.PIPE, stdout=subprocess.PIPE,
                                                 stderr=errors, text=True, bufsize=1)
            except OSError as fault:
                raise ToolFault(f"{program}: {fault.strerror}") from None
            # pylint: disable-next=consider-using-with
            self._errors = open(errors.name, encoding="utf-8", errors="replace")
        assert self._process.stdin and self._process.stdout
        self._input, self._output = self._process.stdin, self._process.stdout
        for line in setup:
            self._give(line)

    def say(self, line: str) -> list[str]:
        """Gives a line; the lines that are answered, each of which is written before the next line is read."""
        self._give(line)
        lines: list[str] = []
        while not lines or not lines[-1].startswith(("answer ", "fault ")):
            said = self._output.readline()
            if not said:
                raise self._ended(line)
            lines.append(said.rstrip("\n"))
        if lines[-1].startswith("fault "):
            LOG.info("the %s machine refuses a line: %s", self._task, self._errors.read().strip())
        return lines

    def close(self) -> None:
        """Ends the process."""
        try:
            self._input.close()
        except OSError:
            LOG.debug("the %s machine had ended already", self._task)
        self._wait()
        self._output.close()
        self._errors.close()

    def _ended(self, line: str) -> ToolFault:
        """What is said of a machine that isn't there any more: want of memory ends it."""
        self._wait()
        said = (self._errors.read().splitlines() or ["without a word"])[-1]
        return ToolFault(f"the {self._task} machine has ended, {said}, at: {line[:200]}")

    def _wait(self) -> None:
        try:
            self._process.wait(timeout=SECONDS_TO_END)
        except subprocess.TimeoutExpired:
            self._process.kill()
            self._process.wait()

    def _give(self, line: str) -> None:
        try:
            self._input.write(f"{line}\n")
            self._input.flush()
        except OSError:
            raise self._ended(line) from None


def client_process(program: str, schedule: Schedule) -> LineProcess:
    """The client machines of a schedule."""
    # (the line `files` needs a file)
    files = max(1, len(schedule.files))
    return LineProcess(program, "client", [f"files {files}", *(f"client {guid}" for guid in schedule.clients)])


class LineMachine:
    """Machines that are asked by lines."""

    def __init__(self, speaker: Speaker) -> None:
        self._speaker = speaker

    def ask(self, line: str) -> tuple[list[str], str]:
        """The lines of an answer, and what its last one says."""
        *lines, last = self._speaker.say(line)
        if last.startswith("fault "):
            raise ToolFault(f"a machine refused: {line[:200]}")
        return lines, last.partition(" ")[2]

    def close(self) -> None:
        """Ends the machines."""
        self._speaker.close()


class LineClients(LineMachine):
    """The client machines of a run, which are asked by lines; its methods are those of smblease.world.ClientObjects.

    >>> from uuid import UUID
    >>> from smblease.program import find_program
    >>> clients = LineClients(client_process(find_program(), Schedule((b"abc",), (UUID(int=1),), ())))
    >>> clients.step(Event.read("read 1 1"))
    Step(answer=Refused(refusal=<Refusal.NOT_OPEN: 1>), requests=(), notes=())
    >>> clients.close()
    """

    def _step(self, line: str) -> Step:
        lines, answer = self.ask(line)
        sent = [it.partition(" ")[2] for it in lines if it.startswith("request ")]
        notes = [it for it in lines if not it.startswith("request ")]
        return Step(read_answer(answer), tuple(map(read_request, sent)), tuple(read_note(it)[1] for it in notes))

    def step(self, event: Event) -> Step:
        return self._step(event.text)

    def take(self, client: int, reply: Reply) -> Step:
        return self._step(f"take {client} {reply_words(reply)}")
