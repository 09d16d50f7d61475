"""Command lines whose answers are known, in tests/transcripts.

Behind remarks (`#`) a line `$ WORDS` is a command, and lines that begin with `< ` are its standard input. Then comes what it
prints (after `| ` in a text with empty lines), after `! ` what standard error gets (of a fault its first line may stand alone:
then any second line of that fault will do), and after `= ` the status where that isn't 0. Of a refused command line only the
beginning is compared: `~ TEXT` of standard output, `~! TEXT` of standard error.
"""
from __future__ import annotations

import itertools
import re
import shlex
from dataclasses import dataclass, field
from typing import Iterator

import pytest

from tests import needs
from tests.paths import TESTS, files_of
from tests.program.ran import run

# What a second line says, by what the first one begins with.
SECOND = {
    "fault hex": r'HEX(, character \d+: a hexadecimal digit; it is ".+"|: two digits for each byte; there are \d+ digits)',
    "fault file": r'FILE, ".*": (there is no (such file|right to read it)|it is a folder|it can\'t be read|its (name|path) .+)',
    "fault line": r'line \d+(, field \d+: [^;]+; (it is ".+".*|the line .+|two spaces .+)'
                  r"|: files and clients stand before the first event)",
    "fault run 1": r"at most (8 files|16 clients); there are \d+|no two clients with one GUID; clients \d+ and \d+ have one",
    "fault run 2": r"at most 10000 events; there are \d+",
    **{f"fault {number} ": r'context \d+(, ".*")?: .+|a (CREATE|lease break) .+; .+|the header of .+; .+|'
                           r"NextCommand .+|CreateContextsOffset .+"
       for number in range(1, 8)},
}


@dataclass
class Command:
    words: list[str]
    status: int = 0
    given: str = ""
    out: str = ""
    faults: str = ""
    begins: dict[str, str] = field(default_factory=dict)

    def read(self, line: str) -> None:
        mark, _, rest = line.partition(" ")
        if mark == "<":
            self.given += f"{rest}\n"
        elif mark == "!":
            self.faults += f"{rest}\n"
        elif mark == "=":
            self.status = int(rest)
        elif mark in ("~", "~!"):
            self.begins[mark] = rest
        else:
            self.out += f"{rest if mark == '|' else line}\n"


def commands() -> Iterator[object]:
    for path in files_of(TESTS / "transcripts"):
        for number, block in enumerate(path.read_text(encoding="utf-8").split("\n\n"), 1):
            lines = list(itertools.dropwhile(lambda line: line.startswith("#"), filter(None, block.split("\n"))))
            if lines:
                command = Command(shlex.split(lines[0][1:]))
                for line in lines[1:]:
                    command.read(line)
                marks = [needs.OWN_HELP] if {"-h", "--help"} & set(command.words) else []
                yield pytest.param(command, id=f"{path.name}, block {number}, {lines[0][:60]}", marks=marks)


def is_fault(had: str, wanted: str) -> bool:
    """Whether standard error got what is wanted. Where that is the first line of a fault alone, a second one has to say more."""
    patterns = [it for begin, it in SECOND.items() if wanted.startswith(begin)]
    if not patterns or wanted.count("\n") != 1:
        return had == wanted
    second = had[len(wanted):]
    is_well_said = had.startswith(wanted) and re.fullmatch(f"({patterns[0]})\n", second)
    return bool(is_well_said) and (not wanted.startswith("fault line") or second.startswith(wanted[len("fault "):-1]))


@pytest.mark.parametrize("command", commands())
def test_command(command: Command) -> None:
    ended = run(command.words, command.given.encode())
    out, faults = ended.out.decode(errors="replace"), ended.faults.decode(errors="replace")
    assert ended.status == command.status, (out[:300], faults[:300])
    if command.begins:
        assert out.startswith(command.begins.get("~", "")) and bool(out) == ("~" in command.begins), out[:300]
        assert faults.startswith(command.begins.get("~!", "")) and bool(faults) == ("~!" in command.begins), faults[:300]
    else:
        assert out == command.out
        assert is_fault(faults, command.faults), (faults, command.faults)
