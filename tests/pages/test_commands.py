"""The commands of the pages, as they stand there and in their order, give what stands there.

In an indented block a line `$ COMMAND` is a command, and the lines after it are what it prints, to the letter. A block of lines
that each begin with a word such as make or cc is run too, and has to end well. All is run by one shell, in a folder of its own,
with a home of its own, where the kit's command `rt` does nothing but note that it was called. test_shown_commands has the
commands that stand in other blocks and in sentences.
"""
from __future__ import annotations

import os
import re
import shutil
import subprocess
from pathlib import Path
from typing import Iterator, NamedTuple, Optional

import pytest

from tests import needs
from tests.pages.blocks import blocks, page, page_names
from tests.paths import EXAMPLE, TOP

PLAIN = ("make", "export ", "cc ", "mkdir ", "archive=", "out/c/")
OWN = "make check"
# What is run in the folder as it is run at the top of the repository.
LINKS = (
    "CHANGELOG.md", "COPYING.md", "Makefile", "SECURITY.md", "completion", "crates", "crates.txt", "dist", "docs", "drive",
    "examples", "include", "kit.txt", "leasecheck", "man", "out", "pyproject.toml", "python", "rust", "serve", "tests",
    "tools")
# Those that make what others need come first.
FIRST = ("README.md", "docs/SESSIONS.md")
PAGES = [*FIRST, *(it for it in page_names() if it not in FIRST)]
# Commands that have these words need these programs.
NEEDS = {"pkg-config": "pkg-config", "out/c/": "pkg-config", "./lend": "pkg-config", "drive/capture": "tshark",
         "tshark -r": "tshark", "clash.record": "tshark", "man leasecheck": "man", "served": "smbclient",
         "requests.log": "smbclient"}
# And these need these packages of /usr/bin/python3.
PACKAGES = {"environment": ("ensurepip", "hatchling"), "drive/run": ("impacket",)}
MOST_LINES = 150
MOST_LINES_OF_A_USE = 200
MOST_LINES_OF_A_PAGE = 480
MOST_LINES_OF_ALL, MOST_WORDS_OF_ALL = 4_000, 40_000
MARK = "-- the end of what the command printed:"


class Command(NamedTuple):
    text: str
    # None where its status alone counts
    printed: Optional[str]


def commands(text: str) -> Iterator[Command]:
    for block in blocks(text):
        if all(line.startswith(PLAIN) for line in block):
            yield from (Command(line, None) for line in block if line != OWN)
        elif block[0].startswith("$ "):
            for part in "\n".join(block).split("\n$ "):
                command, _, printed = part.removeprefix("$ ").partition("\n")
                yield Command(command, f"{printed}\n" if printed else "")


COMMANDS = [command for name in PAGES for command in commands(page(name))]


class Session:
    """One shell, in which the commands are run up to the one that is asked for."""

    def __init__(self, folder: Path) -> None:
        (TOP / "out").mkdir(exist_ok=True)
        for name in LINKS:
            (folder / name).symlink_to(TOP / name)
        self.kit_called = folder / "rt-was-called"
        kit = folder / "no-kit" / "rt"
        kit.parent.mkdir()
        kit.write_text(f"#!/bin/sh\necho \"$*\" >>'{self.kit_called}'\nexit 1\n", encoding="utf-8")
        kit.chmod(0o755)
        variables = {**os.environ, "HOME": str(folder), "PATH": f"{kit.parent}:{os.environ['PATH']}", "PIP_NO_INDEX": "1",
                     "PIP_DISABLE_PIP_VERSION_CHECK": "1"}
        self.shell = subprocess.Popen(["bash"], cwd=folder, env=variables, stdin=subprocess.PIPE, stdout=subprocess.PIPE,
                                      text=True)
        self.given = 0

    def run_before(self, number: int) -> None:
        while self.given < number:
            self._run(COMMANDS[self.given])

    def result_of(self, number: int) -> tuple[str, int]:
        self.run_before(number)
        return self._run(COMMANDS[number])

    def _run(self, command: Command) -> tuple[str, int]:
        """What it prints on both streams, and its status."""
        assert self.shell.stdin and self.shell.stdout
        self.given += 1
        self.shell.stdin.write(f"{{ {command.text}\n}} </dev/null 2>&1; echo \"{MARK} $?\"\n")
        self.shell.stdin.flush()
        printed = ""
        for line in self.shell.stdout:
            if line.startswith(MARK):
                return printed, int(line[len(MARK):])
            printed += line
        return printed, -1


@pytest.fixture(scope="module")
def session(tmp_path_factory: pytest.TempPathFactory) -> Iterator[Session]:
    made = Session(tmp_path_factory.mktemp("pages"))
    yield made
    made.shell.communicate()


def case(number: int, command: Command) -> object:
    missing = [needs.program(it) for word, it in NEEDS.items() if word in command.text and not shutil.which(it)]
    missing += [needs.package(it) for word, names in PACKAGES.items() if word in command.text for it in names]
    return pytest.param(number, id=command.text[:60], marks=missing)


@pytest.mark.xdist_group("pages")
@pytest.mark.parametrize("number", [case(number, command) for number, command in enumerate(COMMANDS)])
def test_command(session: Session, number: int) -> None:
    printed, status = session.result_of(number)
    wanted = COMMANDS[number].printed
    if wanted is None:
        assert status == 0, printed
    else:
        assert printed == wanted


@pytest.mark.xdist_group("pages")
def test_no_command_takes_the_kit(session: Session) -> None:
    session.run_before(len(COMMANDS))
    assert not session.kit_called.exists()


def test_readme_is_short() -> None:
    assert page("README.md").count("\n") <= MOST_LINES


@pytest.mark.parametrize("name", ["REAL_SERVERS", "FOUND_ON_SMBD", "CAPTURES", "SERVE", "SERVE_TRIED", "CLIENT_TESTS"])
def test_pages_on_servers_are_short(name: str) -> None:
    """Each is about one use."""
    assert page(f"docs/{name}.md").count("\n") <= MOST_LINES_OF_A_USE


def test_no_page_is_long() -> None:
    lines = {it: it.read_text(encoding="utf-8").count("\n") for it in [*TOP.glob("*.md"), *TOP.glob("docs/*.md")]}
    assert {it.name: count for it, count in lines.items() if count > MOST_LINES_OF_A_PAGE} == {}


def test_pages_are_few_together() -> None:
    """README.md and docs/, words as `wc -w` counts them, bars of tables among them."""
    texts = [it.read_text(encoding="utf-8") for it in [TOP / "README.md", *TOP.glob("docs/*.md")]]
    assert sum(it.count("\n") for it in texts) <= MOST_LINES_OF_ALL
    assert sum(len(it.split()) for it in texts) <= MOST_WORDS_OF_ALL


def test_readme_begins_with_an_answer() -> None:
    """What is asked first, and its answer, stand before any other word."""
    first = next(blocks(page("README.md")))
    assert first[0].startswith("$ ./leasecheck ack ") and len(bytes.fromhex(first[1])) == 36
    assert page("README.md").split("\n    ")[0].count("\n") == 1


def test_readme_explains_each_byte_of_that_answer() -> None:
    answer = next(blocks(page("README.md")))[1]
    cells = re.findall(r"^\| ((?:`[0-9a-f]+`(?:, )?)+) \|", page("README.md"), re.M)
    assert "".join(re.findall(r"[0-9a-f]+", " ".join(cells))) == answer


def test_sessions_show_the_example() -> None:
    assert EXAMPLE.read_text(encoding="utf-8").splitlines() in list(blocks(page("docs/SESSIONS.md")))
