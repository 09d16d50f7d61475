"""A decision that code names by its title stands in docs/DECISIONS.md, or in docs/DESIGN.md, to which that page leads."""
from __future__ import annotations

import re

from tests.paths import TOP

NAMED = re.compile(r'^\s*// docs/DECISIONS\.md: "(.*)"\.$', re.MULTILINE)
# A paragraph begins with its title, which may take more than a line.
TITLE = re.compile(r"^\*\*(.+?)\.?\*\*", re.MULTILINE | re.DOTALL)


def titles_of(page: str) -> list[str]:
    text = (TOP / "docs" / page).read_text(encoding="utf-8")
    return [" ".join(title.split()) for title in TITLE.findall(text)]


def test_named_decisions() -> None:
    titles = titles_of("DECISIONS.md") + titles_of("DESIGN.md")
    named = {path: NAMED.findall(path.read_text(encoding="utf-8")) for path in TOP.glob("crates/*/src/**/*.rt")}
    assert any(named.values())
    assert [(path.name, title) for path, found in named.items() for title in found if title not in titles] == []


def test_a_title_stands_for_one_entry() -> None:
    titles = titles_of("DECISIONS.md") + titles_of("DESIGN.md")
    assert len(titles) > 60 and sorted(titles) == sorted(set(titles))
