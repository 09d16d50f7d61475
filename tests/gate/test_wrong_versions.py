"""The wrong versions that docs/TESTING.md lists: each is an edit that there is, as `CRATE/EDIT`, or a test."""
from __future__ import annotations

import re

from tests.paths import TESTS, TOP

CRATES = TOP / "crates"
# The gate proves a crate with edits once more, and then tries them one after another: two thirds of its time when there were 593.
# The code of client, server and capture walk has none: its contracts are equations with definitions, which have edits of their
# own, or worked examples.
MOST_EDITS = 160
MOST_CRATES = 12
ROW = re.compile(r"^\| [^|]+ \| (`[^|]+`) \|$", re.M)


def named() -> list[str]:
    page = (TOP / "docs/TESTING.md").read_text(encoding="utf-8")
    table = page[page.index("| A version that |"):page.index("## What the tests show")]
    return re.findall(r"`([\w/]+)`", " ".join(ROW.findall(table)))


def is_an_edit(name: str) -> bool:
    crate, _, edit = name.partition("/")
    return (CRATES / crate / "must-fail" / f"{edit}.edit").is_file()


def is_a_test(name: str) -> bool:
    in_python = any(f"def {name}(" in it.read_text(encoding="utf-8") for it in TESTS.rglob("test_*.py"))
    return in_python or any(TOP.glob(f"rust/*/tests/{name}"))


def test_each_wrong_version_is_tried() -> None:
    names = named()
    assert len(names) >= 22
    assert [it for it in names if not (is_an_edit(it) if "/" in it else is_a_test(it))] == []


def test_edits_are_few() -> None:
    edits = list(CRATES.glob("*/must-fail/*.edit"))
    assert 80 < len(edits) <= MOST_EDITS
    assert len({it.parent for it in edits}) <= MOST_CRATES
