"""Commands that stand on the pages without what they print, in blocks and in sentences, are commands that there are.

They need a server, a right, a network or minutes, so they aren't run here. Each option of the repository's own programs has to be
one of `--help`; for the others OTHERS says why, and what runs them. Pages that the pages name are there.
"""
from __future__ import annotations

import functools
import re
import shlex
import subprocess
from typing import Iterator, NamedTuple

import pytest

from tests.pages.blocks import FENCED, blocks, page, page_names
from tests.pages.test_commands import PLAIN
from tests.paths import TOP

# The beginning of a command, and what doesn't run it here.
OTHERS = {
    "tools/setup": "needs root and apt-get; the gate runs it",
    "tools/cargo test": "takes minutes; `make check-rust` runs it",
    "tools/release": "needs a tag; tests/install runs it",
    "tools/plain_build": "takes minutes; `make` runs it where dist/ doesn't fit",
    "make check": "takes minutes; the gate runs it, as it does check-long and lint",
    "make lint": "takes minutes; the gate runs it",
    "rt ": "is the Rattle kit's",
    "cargo add": "changes a package of the reader's",
    "pip ": "tests/install runs it",
    "PYTHONPATH=python python3": "waits for what is typed; test_commands runs programs so",
    "/usr/bin/python3 -m pytest": "runs tests",
    "smbclient": "needs the server before it; tests/serve runs it so",
    "dumpcap": "needs a right to capture",
    "echo ": "needs socat and the server before it; tests/serve sends such lines",
    "parallel": "needs other machines",
}
OWN = re.compile(r"(?:^|[ `])((?:drive|serve)/[a-z]+|(?:\./)?leasecheck [a-z]+)(?=[ `]|$)")
BEGINS = re.compile(r"(?:drive|serve|tools)/|(?:\./)?leasecheck |(?:" + "|".join(map(re.escape, OTHERS)) + ")")
OPTION = re.compile(r"(?<!\S)--?[a-zA-Z][\w-]*")
SPAN = re.compile(r"`([^`]+)`")
NAMED = re.compile(r"\b(?:docs/)([A-Z_]+\.md)\b")


class Shown(NamedTuple):
    page: str
    text: str


def in_blocks(name: str) -> Iterator[Shown]:
    for block in blocks(page(name)):
        if block[0].startswith("$ ") or all(line.startswith(PLAIN) for line in block):
            continue
        for line in "\n".join(block).replace("\\\n", "").splitlines():
            if BEGINS.match(line):
                yield Shown(name, re.sub(r"\s+#.*", "", line))


def in_sentences(name: str) -> Iterator[Shown]:
    """Spans of code that have options of a program of the repository."""
    for text in SPAN.findall(FENCED.sub("", page(name))):
        text = " ".join(text.split())
        if OWN.match(text) and OPTION.search(text):
            yield Shown(name, text)


IN_BLOCKS = [it for name in page_names() for it in in_blocks(name)]
IN_SENTENCES = sorted({it for name in page_names() for it in in_sentences(name)})


@functools.cache
def help_of(program: str) -> str:
    words = program.removeprefix("./").split()
    command = [str(TOP / words[0]), *words[1:], "--help"]
    return subprocess.run(command, capture_output=True, text=True, check=True).stdout


def options_in(text: str) -> list[str]:
    """Those that stand after the program, as far as they are its own."""
    own = text.split(" | ")[0]
    return [it for it in OPTION.findall(own) if it not in ("--help", "--version", "-V", "-h")]


def unknown_options(text: str) -> list[str]:
    found = OWN.search(text)
    assert found, text
    told = help_of(found[1])
    return [it for it in options_in(text[found.end():]) if not re.search(rf"(?<![\w-]){it}(?![\w-])", told)]


def is_own(text: str) -> bool:
    return bool(OWN.match(text)) and not any(text.startswith(it) for it in OTHERS)


@pytest.mark.parametrize("shown", [pytest.param(it, id=f"{it.page}: {it.text[:50]}") for it in IN_BLOCKS])
def test_a_command_in_a_block(shown: Shown) -> None:
    if is_own(shown.text):
        assert unknown_options(shown.text) == []
        assert shlex.split(shown.text)
    else:
        reasons = [why for beginning, why in OTHERS.items() if shown.text.startswith(beginning)]
        assert reasons, "nothing says why it isn't run"
        assert not OWN.search(shown.text) or unknown_options(shown.text) == []


@pytest.mark.parametrize("shown", [pytest.param(it, id=f"{it.page}: {it.text[:50]}") for it in IN_SENTENCES])
def test_a_command_in_a_sentence(shown: Shown) -> None:
    assert unknown_options(shown.text) == []


@pytest.mark.parametrize("name", page_names())
def test_pages_that_are_named_are_there(name: str) -> None:
    assert [it for it in NAMED.findall(page(name)) if not (TOP / "docs" / it).is_file()] == []


def test_targets_of_make_that_are_named_are_there() -> None:
    rules = set(re.findall(r"^([a-z0-9-]+):", (TOP / "Makefile").read_text(encoding="utf-8"), re.M))
    named = {(name, it) for name in page_names() for it in re.findall(r"`make ([a-z0-9-]+)[^`]*`", page(name))}
    assert named and [it for it in named if it[1] not in rules] == []
