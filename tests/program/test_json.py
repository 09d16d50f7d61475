"""`--json` prints one object in a line, which has what the lines without it say, with the same status and the same faults."""
from __future__ import annotations

import json
import random
from pathlib import Path
from typing import Any

import jsonschema
import pytest

from tests.paths import EXAMPLE, RECORDS, RUNS, SCHEDULES, TOP, files_of, name_of
from tests.program.explaining import damaged
from tests.program.ran import Ended, run

SCHEMA = json.loads((TOP / "docs/leasecheck.schema.json").read_text(encoding="utf-8"))
FOUND = TOP / "drive" / "found"
# Lines of captures, as drive/capture makes them.
CAPTURES = files_of(TOP / "tests" / "captures", "*")


def object_of(ended: Ended, form: str) -> dict[str, Any]:
    """The object that a run printed, in a line of its own."""
    assert ended.out.endswith(b"\n") and ended.out.count(b"\n") == 1 and not ended.faults, ended
    found: dict[str, Any] = json.loads(ended.out)
    jsonschema.validate(found, SCHEMA)
    jsonschema.validate(found, {**SCHEMA, "anyOf": [{"$ref": f"#/$defs/{form}"}]})
    return found


def judged_lines(found: dict[str, Any]) -> list[str]:
    """The lines of `judge --explain` that an object's values make."""
    numbers = [str(found[name]) for name in ("place", "rule") if name in found]
    return [" ".join([found["verdict"], *numbers]), *found["explanation"]]


def check_judged(record: bytes) -> None:
    plain, had = run(["judge", "--explain", "-"], record), run(["judge", "--json", "-"], record)
    if plain.faults:
        assert had == plain
        return
    assert had.status == plain.status
    assert judged_lines(object_of(had, "judged")) == plain.out.decode().splitlines()


@pytest.mark.parametrize("path", [*RECORDS, *RUNS, *files_of(FOUND, "*.record")], ids=name_of)
def test_judged(path: Path) -> None:
    check_judged(path.read_bytes())


@pytest.mark.parametrize("number", range(50))
def test_damaged_record(number: int, chooser: random.Random) -> None:
    lines = chooser.choice([*RECORDS, *RUNS]).read_text(encoding="latin-1").splitlines() or [f"joined {number + 1}"]
    check_judged("".join(f"{it}\n" for it in damaged(chooser, lines)).encode("latin-1"))


def test_values() -> None:
    """A case by hand."""
    had = run(["judge", "--json", "-"], b"start 1 61\njoined 1\nsettled 1 1 done\n")
    assert had.status == 3
    assert json.loads(had.out) == {"verdict": "unsafe", "place": 3, "rule": 4, "explanation": [
        "line 3: client 1 learns that its write 1 is done", "rule 4: a write is settled as done only if it changed its file",
        "judged: 3 facts of 1 client"]}


def test_both_ways_of_a_reason() -> None:
    """As an object the verdict always has its reason."""
    record = RECORDS[0].read_bytes()
    assert run(["judge", "--json", "--explain", "-"], record) == run(["judge", "--json", "-"], record)


@pytest.mark.parametrize("words", [(), ("--messages",), ("--explain",), ("--rules", "by-key,whole", "--messages", "--explain")])
@pytest.mark.parametrize("path", [EXAMPLE, *SCHEDULES], ids=name_of)
def test_replayed(path: Path, words: tuple[str, ...]) -> None:
    plain, had = run(["replay", *words, path]), run(["replay", "--json", *words, path])
    assert had.status == plain.status == 0
    assert object_of(had, "replayed") == {"verdict": "safe", "record": plain.out.decode().splitlines()}


def test_of_several_blocks() -> None:
    schedule = EXAMPLE.read_bytes() + b"read 2 1\n" * 5000
    plain, had = run(["replay", "-"], schedule), run(["replay", "--json", "-"], schedule)
    assert len(plain.out) > 65_536
    assert object_of(had, "replayed")["record"] == plain.out.decode().splitlines()


@pytest.mark.parametrize("words", [(), ("--record",), ("--at", "client"), ("--at", "client", "--record")])
@pytest.mark.parametrize("path", CAPTURES, ids=name_of)
def test_captured(path: Path, words: tuple[str, ...]) -> None:
    plain, had = run(["capture", *words, path]), run(["capture", "--json", *words, path])
    found = object_of(had, "captured")
    lines = plain.out.decode().splitlines()
    assert had.status == plain.status
    if "--record" in words:
        assert found["record"] == lines and f"# {found['verdict']}" in lines
    else:
        assert [found["verdict"], *found["findings"]] == lines


@pytest.mark.parametrize(("words", "given"), [
    (("replay",), b"file 61\nnonsense\n"), (("replay",), b"file 61\n" * 17), (("judge",), b"start 1\n"),
    (("capture",), b"nonsense\n"),
])
def test_refused_as_without(words: tuple[str, ...], given: bytes) -> None:
    plain, had = run([*words, "-"], given), run([*words, "--json", "-"], given)
    assert plain.status == 1 and had == plain
