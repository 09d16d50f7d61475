"""leasecheck(1), of what --help says."""
from __future__ import annotations

import re
import subprocess
import textwrap
from typing import Iterator, NamedTuple

from man_pages.writing import Page, literal, see_also

# An entry of a list in a help text: its words, its text on the same line, and the lines below it.
ENTRY = re.compile(r"^ {2,6}(\S+(?: \S+)*)(?:  +(\S.*))?\n((?: {10,}\S.*\n| {5}\S.*\n|[ ]*\n(?= {10}\S))*)", re.M)


class Help(NamedTuple):
    """What `--help` prints: the text before its usage, the usage, and its parts by their headings."""

    about: str
    usage: str
    parts: list[tuple[str, str]]


def read_help(program: str, *command: str) -> Help:
    text = subprocess.run([program, *command, "--help"], stdout=subprocess.PIPE, check=True, text=True).stdout
    about, usage, rest = re.split(r"^Usage: (.*)\n", text, maxsplit=1, flags=re.M)
    pieces = re.split(r"^([A-Z][a-z ]+):\n", rest, flags=re.M)
    return Help(about, usage, list(zip(pieces[1::2], pieces[2::2])))


def paragraphs(text: str) -> Iterator[str]:
    """Paragraphs of a help text as Markdown; indented lines are code."""
    for block in re.findall(r"(?:^ .*\n)+|(?:^[^ \n].*\n?)+", text, re.M):
        yield textwrap.indent(textwrap.dedent(block), "    ") if block.startswith(" ") else literal(block)


def entries(text: str, skipped: str) -> Iterator[str]:
    """The entries of a help text's list as Markdown, and what comes after them."""
    for words, first, below in ENTRY.findall(text):
        if words != skipped:
            parts = [" ".join(part.split()) for part in re.split(r"\n[ ]*\n", f"{first}\n{below}")]
            yield f"`{words}`\n:   " + "\n\n    ".join(literal(part) for part in parts if part) + "\n"
    yield from paragraphs(ENTRY.sub("", text))


def part(form: str, title: str, text: str, skipped: str = "") -> str:
    """A part of a help text below its title, which stands in a form; nothing where it has no entry but the skipped one."""
    listed = list(paragraphs(text) if title == "Example" else entries(text, skipped))
    return "\n".join([form.format(title), *listed]) if listed else ""


def of_command(program: str, command: str) -> str:
    has = read_help(program, command)
    told = [part("**{}**\n", title, text, "-h, --help") for title, text in has.parts]
    return "\n".join([f"## {literal(has.usage.removeprefix('leasecheck '))}\n", *paragraphs(has.about), *told])


def program_page(program: str) -> Page:
    has = read_help(program)
    commands = [words for words, _, _ in ENTRY.findall(dict(has.parts)["Commands"])]
    usages = [read_help(program, it).usage for it in commands]
    name = "# NAME\n\nleasecheck - messages, schedules and records of SMB 2.1 leases\n\n# SYNOPSIS\n"
    [first, *others] = [part("# {}\n", title.upper(), text) for title, text in has.parts]
    return Page("leasecheck", 1, "\n".join(
        [name, *(f"| `{it}`" for it in usages), "\n# DESCRIPTION\n", *paragraphs(has.about), first,
         *(of_command(program, it) for it in commands), *others, see_also("smblease(3)")]))
