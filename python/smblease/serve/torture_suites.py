"""All tests of smbtorture that are about SMB 2, and a table of what came of them, a row for each suite."""
from __future__ import annotations

import re
from collections.abc import Iterable, Sequence
from dataclasses import dataclass
from enum import Enum

from smblease.drive.faults import DriveFault


class Kind(Enum):
    PASSED = "passed"
    FAILED = "failed"
    SKIPPED = "skipped"


LINE = re.compile(rf"(smb2\S*(?: \S+)*?) +({'|'.join(it.value for it in Kind)}) +([0-9.]+) ?(.*)")


@dataclass(frozen=True)
class Row:
    name: str
    kind: Kind
    seconds: float
    words: str

    @property
    def text(self) -> str:
        return f"{self.name:45} {self.kind.value:8} {self.seconds:6.1f} {self.words}".rstrip()


def read_rows(path: str) -> list[Row]:
    """The rows that were printed earlier; other lines are passed over."""
    try:
        with open(path, encoding="utf-8", errors="replace") as lines:
            found = [LINE.fullmatch(line.rstrip("\n")) for line in lines]
    except OSError as fault:
        raise DriveFault(f"{path}: {fault.strerror}") from None
    return [Row(it[1], Kind(it[2]), float(it[3]), it[4]) for it in found if it]


def suite_of(name: str) -> str:
    """smb2.ioctl of smb2.ioctl.shadow_copy, and smb2 of smb2.connect."""
    return ".".join(name.split(".")[:2]) if name.count(".") > 1 else "smb2"


def table(columns: Sequence[tuple[str, Iterable[Row]]]) -> str:
    """In Markdown: of each server how many passed, failed and were skipped, as `22/1/0`, by suite and in all."""
    found = [(server, list(rows)) for server, rows in columns]
    suites = sorted({suite_of(row.name) for _, rows in found for row in rows})
    lines = [[f"{'/'.join(it.value for it in Kind)} of", *(server for server, _ in found)], ["---"] * (len(found) + 1)]
    lines += [[suite, *_counts(found, {suite})] for suite in suites] + [["in all", *_counts(found, set(suites))]]
    return "\n".join(f"| {' | '.join(it)} |" for it in lines)


def _counts(found: Sequence[tuple[str, list[Row]]], suites: set[str]) -> list[str]:
    chosen = [[row.kind for row in rows if suite_of(row.name) in suites] for _, rows in found]
    return ["/".join(str(kinds.count(kind)) for kind in Kind) for kinds in chosen]
