"""`judge --explain` prints what the rules say of a record, for records that are kept and for damaged ones."""
from __future__ import annotations

import random

import pytest

from tests.paths import RECORDS, RUNS, TOP, files_of
from tests.program.explaining import damaged, explanations, facts_of
from tests.program.ran import Ended, run

FOUND = files_of(TOP / "drive" / "found", "*.record")


def kept() -> dict[str, list[str]]:
    """The records that are kept, by their names, in lines; but for long ones and those with bytes that are no ASCII."""
    texts = {f"{path.parent.name}/{path.name}": path.read_text(encoding="latin-1") for path in (*RECORDS, *RUNS, *FOUND)}
    return {name: text.splitlines() for name, text in texts.items() if text.isascii() and 0 < len(text) < 40_000}


KEPT = kept()


def check(lines: list[str]) -> None:
    text = "".join(f"{it}\n" for it in lines)
    plain, explained = run(["judge", "-"], text.encode("latin-1")), run(["judge", "--explain", "-"], text.encode("latin-1"))
    first, *rest = explained.out.decode().splitlines() or [""]
    assert plain == Ended(explained.status, f"{first}\n".encode() if first else b"", explained.faults), text
    if first:
        assert rest in explanations(first.split(" "), facts_of(lines)), text


@pytest.mark.parametrize("name", KEPT)
def test_kept_record(name: str) -> None:
    check(KEPT[name])


@pytest.mark.parametrize("_number", range(1000))
def test_damaged_record(_number: int, chooser: random.Random) -> None:
    check(damaged(chooser, KEPT[chooser.choice(sorted(KEPT))]))


def test_of_several_rivals_the_earliest_is_named() -> None:
    joined = [f"joined {client}" for client in (1, 2, 3, 4)]
    readers = [line for client in (2, 3, 1) for line in (f"sent {client}", f"took {client}", f"believes {client} 1 R")]
    text = "".join(f"{it}\n" for it in ["start 1 61", *joined, *readers, "sent 4", "took 4", "believes 4 1 RW"])
    told = run(["judge", "--explain", "-"], text.encode()).out.decode().splitlines()
    assert told[:3] == ["unsafe 17 1", "line 17: client 4 believes RW of file 1",
                        "line 8: client 2 believes R of file 1, since here"]
