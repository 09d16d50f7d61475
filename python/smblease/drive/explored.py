"""What became of explored schedules: the rows of a table, and its head, which says how they were made."""
from __future__ import annotations

import os
import re
from collections.abc import Sequence
from dataclasses import astuple, dataclass

from smblease.drive.faults import Usage
from smblease.drive.runner import NOTHING, UNEXPECTED
from smblease.drive.tried import Tried
from smblease.faults import ToolFault

LINE = re.compile(r"(\d+) (\S+) (\w+) (\d+) (\d+) (\d+ \d+ \d+ \d+ \d+ \d+) (.*?) (\S+)(?: shrunk (\d+)| (allowed))?")
COLUMNS = "number seed manner events done asked granted refused breaks acknowledged cached verdict likeness"
TRIED = {"granted": "leases", "breaks": "breaks", "acknowledged": "acknowledgments", "cached_reads": "cached reads"}


@dataclass(frozen=True)
class Head:
    """How the rows of a table were made. Those of other seeds, servers or options don't go into it."""

    seed: int
    server: str
    options: str

    @property
    def text(self) -> str:
        return f"# seed {self.seed}; server {self.server}; options {self.options or 'none'}\n# {COLUMNS}\n"


@dataclass(frozen=True)
class Row:
    number: int
    # what draws this schedule by itself
    seed: str
    manner: str
    events: int
    applied: int
    tried: Tried
    verdict: str
    likeness: str
    left: int | None = None
    is_allowed: bool = False

    @classmethod
    def read(cls, line: str) -> Row:
        found = LINE.fullmatch(line)
        if found is None:
            raise ToolFault(f"no line of a table: {line[:200]}")
        number, seed, manner, events, applied, tried, verdict, likeness, left, allowed = found.groups()
        return cls(int(number), seed, manner, int(events), int(applied), Tried(*map(int, tried.split())), verdict, likeness,
                   int(left) if left else None, bool(allowed))

    @property
    def text(self) -> str:
        tail = " allowed" if self.is_allowed else f" shrunk {self.left}" if self.left is not None else ""
        tried = " ".join(map(str, astuple(self.tried)))
        head = f"{self.number} {self.seed} {self.manner} {self.events} {self.applied} {tried}"
        return f"{head} {' '.join(self.verdict.split())} {self.likeness}{tail}\n"

    @property
    def is_unsafe(self) -> bool:
        return self.verdict.startswith("unsafe") and not self.is_allowed

    @property
    def is_unexpected(self) -> bool:
        return self.verdict.startswith(f"{UNEXPECTED} ")

    @property
    def is_charged(self) -> bool:
        return self.is_unsafe or self.is_unexpected

    @property
    def tried_nothing(self) -> bool:
        return self.verdict == NOTHING

    @property
    def is_fault(self) -> bool:
        """Whether the schedule wasn't driven to its end."""
        return self.verdict.startswith(("fault ", "malformed "))

    def result(self) -> tuple[str, str]:
        """What it is to a build server, nothing where it passed, and why."""
        if self.is_fault:
            return "error", self.verdict.removeprefix("fault ")
        if self.tried_nothing:
            return "skipped", f"{NOTHING}: {self.tried.remarks[0]}"
        if self.is_allowed:
            return "skipped", f"{self.verdict}, {self.likeness}, which is allowed"
        left = f", {self.left} events are left" if self.left is not None else ""
        return ("failure", f"{self.verdict}, {self.likeness}{left}") if self.is_charged else ("", "")


def tried_by(rows: Sequence[Row]) -> str:
    """What all of them tried together, and how many had none of that."""
    counts = {word: [getattr(row.tried, name) for row in rows] for name, word in TRIED.items()}
    return "tried: " + ", ".join(f"{sum(its)} {word} ({its.count(0)} schedules had none)" for word, its in counts.items())


class Table:
    """The file with the rows; each is there as soon as it is known."""

    def __init__(self, path: str, head: Head, resumes: bool) -> None:
        self.path = path
        self.head = head
        self.rows = self._rows_before(resumes) if os.path.exists(path) else []
        self._file = open(path, "a", encoding="utf-8")
        if not self._file.tell():
            self._write(head.text)

    def _rows_before(self, resumes: bool) -> list[Row]:
        """The rows that are there already. A line that was cut short is taken away."""
        if not resumes:
            raise Usage(f"{self.path} is there already: --resume goes on with it, --folder names another one")
        with open(self.path, "r+", encoding="utf-8") as table:
            text = table.read()
            whole = text[:text.rfind("\n") + 1]
            if whole and not whole.startswith(self.head.text):
                raise Usage(f"{self.path} was made otherwise ({whole.splitlines()[0][:200]}): --folder names another one")
            table.seek(0)
            table.truncate()
            table.write(whole)
        return [Row.read(it) for it in whole.splitlines() if not it.startswith("#")]

    def add(self, row: Row) -> None:
        self.rows.append(row)
        self._write(row.text)

    def _write(self, text: str) -> None:
        self._file.write(text)
        self._file.flush()

    def close(self) -> None:
        """Closes it, with its rows by their numbers."""
        self._file.close()
        self.rows.sort(key=lambda it: it.number)
        with open(f"{self.path}.sorted", "w", encoding="utf-8") as table:
            table.write(self.head.text + "".join(it.text for it in self.rows))
        os.replace(f"{self.path}.sorted", self.path)
