"""Texts as Markdown, and Markdown as man pages."""
from __future__ import annotations

import re
import subprocess
import sys
from pathlib import Path
from typing import NamedTuple

TOP = Path(__file__).resolve().parent.parent.parent
sys.path.insert(0, str(TOP / "python"))

from smblease.version import VERSION  # noqa: E402  pylint: disable=wrong-import-position

PUNCTUATION = re.compile(r"([!-/:-@\[-`{-~])")
PANDOC = ("pandoc", "--standalone", "--from", "markdown-smart", "--to", "man", "-M", "hyphenate=false", "-V", "adjusting=l")


class Page(NamedTuple):
    """A man page: its name, its section, and its text as Markdown."""

    title: str
    section: int
    text: str


def literal(text: str) -> str:
    return PUNCTUATION.sub(r"\\\1", text)


def prose(text: str) -> str:
    """A text in which only what stands between backticks is marked."""
    return "".join(part if part.startswith("`") else literal(part) for part in re.split(r"(`[^`]+`)", text))


def see_also(*pages: str) -> str:
    """The last part of a page, which leads to these, written as `leasecheck(1)`."""
    named = ", ".join(f"**{literal(name)}**({section}" for name, _, section in (it.partition("(") for it in pages))
    return ("# SEE ALSO\n\n" + f"{named}. The pages of the project that the text names as docs/NAME.md are installed as\n"
            "share/doc/smblease/NAME.md, below the prefix of `make install`.\n")


def write_page(folder: Path, page: Page) -> None:
    """The page in the folder of its section, below that of all pages."""
    head = f"% {page.title.upper()}({page.section}) {page.title} {VERSION}\n\n"
    made = subprocess.run(PANDOC, input=head + page.text, stdout=subprocess.PIPE, check=True, text=True).stdout
    place = folder / f"man{page.section}"
    place.mkdir(exist_ok=True)
    (place / f"{page.title}.{page.section}").write_text(made, encoding="utf-8")


def write_link(folder: Path, name: str, page: Page) -> None:
    """A page that is another one by a further name."""
    place = f"man{page.section}"
    (folder / place / f"{name}.{page.section}").write_text(f".so {place}/{page.title}.{page.section}\n", encoding="utf-8")
