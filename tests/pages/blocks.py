"""The pages, and their indented blocks."""
from __future__ import annotations

import re
from typing import Iterator

from tests.paths import TOP

FENCED = re.compile(r"^```.*?^```$", re.M | re.S)


def page_names() -> list[str]:
    """README.md and its kin, the pages of docs/ and those of folders."""
    patterns = ("*.md", "docs/*.md", "python/smblease/*/*.md")
    return sorted(str(it.relative_to(TOP)) for pattern in patterns for it in TOP.glob(pattern))


def page(name: str) -> str:
    return (TOP / name).read_text(encoding="utf-8")


def blocks(text: str) -> Iterator[list[str]]:
    """Those that are indented; fenced ones have no commands."""
    for block in re.findall(r"(?:^    .*\n)+", FENCED.sub("", text), re.M):
        yield [line[4:] for line in block.splitlines()]
