"""`leasecheck client` and `leasecheck server` as two processes.

- tests/conversations: `> ` begins a line that is given to the machines that the file's first line names; after it come the lines
  that they answer, each read before the next line is given, so that an answer that isn't written and flushed at once is missed.
- Refused lines: what is said of each on standard error.
- Schedules: the links are kept by smblease.world. The record, with the messages that go over the links, has to be that of
  `leasecheck replay`.
"""
from __future__ import annotations

import contextlib
import re
import select
import subprocess
from pathlib import Path
from typing import Iterator

import pytest

from smblease.processes import LineClients, LineProcess, client_process
from smblease.schedules import Schedule
from smblease.world import MachineWorld
from tests.paths import EXAMPLE, SCHEDULES, TESTS, built_program, files_of, name_of
from tests.program.line_server import LineServer, server_process
from tests.program.ran import SAFE, Ended, run
from tests.shims import shim

SECONDS = 20.0
CONVERSATIONS = files_of(TESTS / "conversations")


class Lines:
    """The record and the remarks of a world."""

    def __init__(self) -> None:
        self.lines: list[str] = []

    def fact(self, text: str) -> None:
        self.lines.append(text)

    def remark(self, text: str) -> None:
        self.lines.append(f"# {text}")


@pytest.mark.parametrize("path", [EXAMPLE, *SCHEDULES], ids=name_of)
def test_schedule(path: Path, program: str) -> None:
    schedule, record = Schedule.read(path.read_text(encoding="ascii", errors="surrogateescape")), Lines()
    with contextlib.closing(LineClients(client_process(program, schedule))) as clients, \
            contextlib.closing(LineServer(server_process(program, schedule))) as server:
        world = MachineWorld(schedule, clients, server, record)
        for event in schedule.events:
            world.happens(event)
    replayed = run(["replay", "--messages", path]).out.decode()
    assert "\n".join([*record.lines, "# safe", ""]) == replayed
    assert run(["judge", "-"], replayed.encode()) == Ended(0, SAFE)
    assert [it for it in record.lines if not it.startswith("#")] == run(["replay", path]).out.decode().splitlines()[:-1]


class Machine:
    """A process that is given a line at a time; each answer has to come before the next line is given."""

    def __init__(self, task: str) -> None:
        self.process = subprocess.Popen([built_program(), task], stdin=subprocess.PIPE, stdout=subprocess.PIPE, bufsize=0)

    def give(self, line: str) -> None:
        assert self.process.stdin
        self.process.stdin.write(f"{line}\n".encode())

    def read_line(self) -> str:
        """The next line that is written, or what came of it in time."""
        assert self.process.stdout
        line = b""
        while not line.endswith(b"\n") and select.select([self.process.stdout], [], [], SECONDS)[0]:
            byte = self.process.stdout.read(1)
            if not byte:
                break
            line += byte
        return line.decode().rstrip("\n")

    def end(self) -> tuple[bytes, int]:
        """What is still written, and the status."""
        rest, _ = self.process.communicate(timeout=SECONDS)
        return rest, self.process.returncode


@pytest.fixture
def machine(request: pytest.FixtureRequest) -> Iterator[Machine]:
    made = Machine(request.param)
    yield made
    made.process.kill()
    made.process.wait()


def conversation(path: Path) -> object:
    task, *lines = path.read_text(encoding="ascii").splitlines()
    return pytest.param(task.split()[-1], lines, id=path.name)


@pytest.mark.parametrize(("machine", "lines"), map(conversation, CONVERSATIONS), indirect=["machine"])
def test_conversation(machine: Machine, lines: list[str]) -> None:
    for number, line in enumerate(lines, 2):
        if line.startswith(">"):
            machine.give(line[1:].removeprefix(" "))
        elif not line.startswith("#"):
            assert (number, machine.read_line()) == (number, line)
    assert machine.end() == (b"", 0)


# What is given to a machine, what it answers, and what it says of the lines that it refuses.
REFUSED_LINES = {
    "client": (
        "files 0;files 1;files 2;client 11111111-1111-1111-1111-111111111111;client {11111111-1111-1111-1111-111111111111};"
        "read 2 1;serve 1;take 1 created 1 1;read 1 1",
        "fault line 1;fault line 3;fault line 5;fault line 6;fault line 7;fault line 8;answer refused notopen",
        "line 1, field 2: a file, which is a number from 1 to 255 without leading zeros; it is \"0\";"
        "line 3: the number of files is given once, before the first client;"
        "line 5: clients come after the number of files, at most 255, each with a GUID of its own;"
        "line 6: there is no client of this number;"
        "line 7, field 1: a kind of line, which is files, client, connect, notice, take, open, close, read, flush or write; "
        "it is \"serve\";"
        "line 8, field 6: bytes, of two hexadecimal digits each, or - for none; the line ends before it"),
    "server": (
        "rules by-key;file -;rules by-key,whole;join 1;file -;receive 1 ask;expire 1 00;content 1 ;content 1",
        "fault line 1;fault line 3;answer done;fault line 5;fault line 6;fault line 7;fault line 8;answer bytes -",
        "line 1, field 2: rules, which are by-client or by-key, a comma, and as-free or whole; it is \"by-key\";"
        "line 3: rules stand before all other lines;"
        "line 5: at most 255 files stand before the first call;"
        "line 6, field 3: a request, which is create, read, close, write or ack; it is \"ask\";"
        "line 7, field 3: a lease key of 16 bytes, which are 32 hexadecimal digits; it is \"00\";"
        "line 8, field 3: the line's end; the line ends with a space"),
}


def as_lines(text: str) -> bytes:
    """What stands between semicolons, a line each; a semicolon with a space behind it is none of them."""
    return re.sub(";(?! )", "\n", f"{text};").encode()


@pytest.mark.parametrize("task", REFUSED_LINES)
def test_reasons_of_refused_lines(task: str) -> None:
    given, answers, reasons = map(as_lines, REFUSED_LINES[task])
    assert run([task], given) == Ended(0, answers, reasons)


def test_a_reason_stands_before_its_answer() -> None:
    ended = subprocess.run([built_program(), "server"], input=b"join 0\njoin 1\nrules x\n", stdout=subprocess.PIPE,
                           stderr=subprocess.STDOUT, timeout=SECONDS, check=False)
    lines = ended.stdout.decode().splitlines()
    assert [it.split(",")[0] for it in lines] == ["line 1", "fault line 1", "answer done", "line 3", "fault line 3"]


def test_many_refused_lines(program: str) -> None:
    """More reasons than a pipe holds stop neither the machine nor who asks it."""
    with contextlib.closing(LineProcess(program, "server")) as process:
        for number in range(1, 2001):
            assert process.say("x") == [f"fault line {number}"]


def test_input_that_ends_within_a_line() -> None:
    assert run(["server"], b"file -\njoin 1\ncontent 1") == Ended(0, b"answer done\nanswer bytes -\n")


@pytest.mark.parametrize("task", ["client", "server"])
def test_input_is_read_in_blocks(task: str) -> None:
    """131,072 bytes of a pipe are read by fewer than a hundred calls."""
    env = {"LD_PRELOAD": shim("streams"), "FAILING_CALL": "100"}
    assert run([task], b"# a remark, of 32 bytes in all.\n" * 4096, env) == Ended(0)


def test_output_that_is_full() -> None:
    with open("/dev/full", "wb") as full:
        ended = subprocess.run([built_program(), "server"], input=b"join 1\n", stdout=full,
                               stderr=subprocess.PIPE, timeout=SECONDS, check=False)
    assert (ended.returncode, ended.stderr) == (1, b"fault output\n")


def test_reasons_that_nothing_takes() -> None:
    with open("/dev/full", "wb") as full:
        ended = subprocess.run([built_program(), "server"], input=b"join 1\njoin 0\njoin 2\n",
                               stdout=subprocess.PIPE, stderr=full, timeout=SECONDS, check=False)
    assert (ended.returncode, ended.stdout) == (1, b"answer done\n")
