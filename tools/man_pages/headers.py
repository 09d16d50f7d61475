"""The headers in pieces: each a comment, and the declarations that it speaks of."""
from __future__ import annotations

import re
import textwrap
from typing import Iterator, NamedTuple

from man_pages.writing import TOP, prose

HEADERS = ("smblease.h", "smblease_machines.h", "smblease_manager.h", "smblease_versions.h",
           "smblease_client_versions.h")
WIDTH = 76
# What a header has for the compiler alone.
GUARDS = re.compile(r'^(?:#(?:ifndef|ifdef|endif|include|define \w+_H$).*|extern "C" \{|\})\n', re.M)
INNER_COMMENT = re.compile(r"^( +)/\*\s*(.*?)\s*\*/$", re.M | re.S)
PROTOTYPE = re.compile(r"^\w[\w *]*\([^;{]*\);$", re.M)
FUNCTION = re.compile(r"\b(smblease_\w+)\(")
NUMBER = re.compile(r"^(?:#define|   ) (SMBLEASE_\w+)", re.M)
TYPE = re.compile(r"^(?:struct|enum) (smblease_\w+) \{", re.M)
# What machines and managers speak of without its name: outcomes of calls, and what an open may do.
UNNAMED = {"smblease_outcome": re.compile(r"\b(?:DONE|NO_MEMORY|LOST|NONE|NO_SUCH)\b"),
           "smblease_uses": re.compile(r"\buint8_t access\b")}


class Piece(NamedTuple):
    header: str
    comment: str
    code: str

    @property
    def is_heading(self) -> bool:
        return self.comment.startswith("/* ----")

    @property
    def is_general(self) -> bool:
        """Whether the comment speaks of more than of the declarations below it."""
        return self.is_heading or self.comment.startswith("/*\n")

    @property
    def functions(self) -> list[str]:
        return [FUNCTION.findall(it)[0] for it in PROTOTYPE.findall(self.code)]

    @property
    def names(self) -> set[str]:
        """The types and numbers that it declares."""
        return {*TYPE.findall(self.code), *NUMBER.findall(self.code)}

    @property
    def mentioned(self) -> set[str]:
        """All names that it speaks of."""
        text = self.comment + self.code
        named = set(re.findall(r"\b(?:smblease|SMBLEASE)_\w+", text))
        unnamed = {name for name, words in UNNAMED.items() if self.header != HEADERS[0] and words.search(text)}
        # (a struct's field `kind` is one of the enum that is called so)
        return named | unnamed | {f"{it}_kind" for it in named}

    @property
    def text(self) -> str:
        """The comment as Markdown."""
        return comment_text(self.comment)

    @property
    def listing(self) -> str:
        """The declarations as Markdown."""
        return f"{textwrap.indent(narrow(self.code.strip()), '    ')}\n" if self.code.strip() else ""


def narrow(code: str) -> str:
    """A piece of a header, with its prototypes and the comments of its fields in narrower lines."""
    def comment(found: re.Match[str]) -> str:
        text = " ".join(found[2].split())
        lines = textwrap.fill(f"/* {text}\0*/", WIDTH, initial_indent=found[1], subsequent_indent=f"{found[1]}   ")
        return lines.replace("\0", " ")

    def prototype(found: re.Match[str]) -> str:
        # (a line ends where a comma or the parenthesis does, and nowhere else)
        kept = re.sub(r"(?<!,) ", "\0", " ".join(found[0].split())).replace("(", "( ")
        lines = textwrap.fill(kept, WIDTH, subsequent_indent="    ", break_long_words=False, break_on_hyphens=False)
        return lines.replace("( ", "(").replace("\0", " ")

    return PROTOTYPE.sub(prototype, INNER_COMMENT.sub(comment, code))


def comment_text(comment: str) -> str:
    lines = [re.sub(r"^ ?\*? ?", "", line) for line in comment.removeprefix("/*").removesuffix("*/").split("\n")]
    blocks = re.split(r"\n\s*\n|\n\s*(?=- )", "\n".join(line.strip() for line in lines).strip())
    return "\n\n".join(f"- {prose(it[2:])}" if it.startswith("- ") else prose(it) for it in blocks)


def pieces_of(header: str) -> Iterator[Piece]:
    text = GUARDS.sub("", (TOP / "include" / header).read_text(encoding="utf-8"))
    found = re.split(r"^(/\*.*?\*/)\n", text, flags=re.M | re.S)
    return (Piece(header, comment, code) for comment, code in zip(found[1::2], found[2::2]))
