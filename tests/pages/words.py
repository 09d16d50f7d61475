"""Words that a reader of English stumbles over, in README.md, the pages of docs/ and of folders, the doc comments of the crates
and the C headers.

In the pages the forms of stumbles.py are looked for too. A line of words.allowed is `FILE | PHRASE | REASON`. The phrase stands
once in the file, where line breaks count as spaces, and has the word in it.
"""
from __future__ import annotations

import re
from typing import Iterator, NamedTuple

from tests.pages.stumbles import stumbles_in
from tests.paths import TESTS, TOP

ALLOWED = TESTS / "pages" / "words.allowed"
FILES = ("*.md", "docs/*.md", "python/smblease/*/*.md", "crates/*/src/**/*.rt", "include/*.h")
# A name of code such as left_behind isn't the word: an underscore belongs to the name.
WORDS = re.compile(r"\b(?:behind|beside|told|tells?|(?:take|takes|taking|took|taken) (?:no )?memory|memory is taken"
                   r"|growths?|hears?|heard|stray(?:s|ed|ing)?)\b"
                   r"|\(own[;,)]|; own\)", re.IGNORECASE)
# The first word of a paragraph, of a cell of a table or of a sentence, after marks such as those of a list.
FIRST = re.compile(r"(?:^|[.:!?][\"')*`]*\s)[-*#>\s\"'(]*(That|And)\b")
DOC = re.compile(r"\s*//[/!] ?(.*)")
# What begins a paragraph of its own: an item of a list, a heading, the fence of a code block.
OPENS = re.compile(r"\s*(?:[-*] |\d+\. |#|```)")


class Allowed(NamedTuple):
    file: str
    phrase: str
    reason: str


def text_lines(path: str) -> list[str]:
    """The lines of a file that are prose; of code its doc comments, with empty lines where there is code."""
    lines = (TOP / path).read_text(encoding="utf-8").splitlines()
    if path.endswith(".rt"):
        found = [DOC.fullmatch(line) for line in lines]
        return [match[1] if match else "" for match in found]
    if path.endswith(".h"):
        return [re.sub(r"^\s*(?:/\*+|\*/|\*)|\*/\s*$", "", line).strip() for line in lines]
    return lines


def paragraphs(path: str) -> Iterator[str]:
    """The paragraphs of a file, each as one line; each cell of a table and each line of a code block is one."""
    begun: list[str] = []
    for line in text_lines(path) + [""]:
        alone = line.startswith(("    ", "|"))
        if not line.strip() or alone or OPENS.match(line):
            if begun:
                yield " ".join(begun)
            begun = []
        if alone:
            yield from (cell.strip() for cell in line.split("|") if cell.strip())
        elif line.strip():
            begun.append(line.strip())


def without_names(text: str) -> str:
    """The text, of the same length, without names of code between backticks."""
    return re.sub(r"`[^`\s]+`", lambda match: " " * len(match[0]), text)


def spans(text: str, path: str) -> list[tuple[int, int]]:
    """Where a word of the list stands in a paragraph of a file, or, of a page, a form of stumbles.py."""
    prose = without_names(text)
    found = [match.span() for match in WORDS.finditer(prose)] + [match.span(1) for match in FIRST.finditer(prose)]
    return sorted(found + (stumbles_in(prose) if path.endswith(".md") else []))


def read_allowed() -> list[Allowed]:
    lines = [it for it in ALLOWED.read_text(encoding="utf-8").splitlines() if it.strip() and not it.startswith("#")]
    return [Allowed(*(part.strip() for part in line.split(" | "))) for line in lines]


def is_covered(text: str, span: tuple[int, int], phrases: list[str]) -> bool:
    for phrase in phrases:
        at = text.find(phrase)
        if 0 <= at <= span[0] and span[1] <= at + len(phrase):
            return True
    return False


def around(text: str, span: tuple[int, int]) -> str:
    """The word with some words before it and after it."""
    before = text[:span[0]].split(" ")
    after = text[span[1]:].split(" ")
    return f"{' '.join(before[-5:])}{text[span[0]:span[1]]}{' '.join(after[:5])}"


def pages() -> dict[str, list[str]]:
    """The paragraphs of each file."""
    paths = sorted({str(path.relative_to(TOP)) for pattern in FILES for path in TOP.glob(pattern)})
    return {path: list(paragraphs(path)) for path in paths}
