"""What drive/capture says of the captures in drive/captures, which were made on loopback on a private smbd."""
from __future__ import annotations

from pathlib import Path

import pytest

from smblease.program import judge

from tests import needs
from tests.drive.commands import Ran, ran
from tests.drive.judging import UNSAFE, judged
from tests.drive.test_captured_lines import KEPT, SIDES, WORDS, keys_of, of_kept
from tests.paths import TOP

pytestmark = needs.program("tshark")


def of_capture(name: str, words: list[object]) -> Ran:
    keys = [word for it in keys_of(name) for word in ("--session-key", it)]
    return ran("capture", [TOP / "drive" / "captures" / f"{name}.pcapng", *keys, *words])


@SIDES
@pytest.mark.parametrize("name", KEPT)
def test_kept(name: str, side: str, program: str) -> None:
    """It prints what leasecheck says of its lines, and what was left out."""
    had = of_capture(name, ["--at", side])
    assert (had.status, had.faults, had.out.splitlines()[0]) == (KEPT[name], "", WORDS[KEPT[name]])
    said = [it for it in had.out.splitlines() if not it.startswith("left out: ")]
    assert said == judged(program, of_kept(name, keys_of(name)), side).said
    assert (len(said) < len(had.out.splitlines())) == (name == "contexts_that_cant_be_read")


@SIDES
@pytest.mark.parametrize("name", KEPT)
def test_record(name: str, side: str, program: str, tmp_path: Path) -> None:
    """With a record the same is printed, and the record is as safe as the capture."""
    path = tmp_path / "one.record"
    had = of_capture(name, ["--at", side, "--record", path])
    assert had == of_capture(name, ["--at", side])
    verdict = judge(program, path.read_text(encoding="utf-8"))
    assert (verdict.rule, verdict.is_safe) == ((1, False) if had.status == UNSAFE else (None, True))
