"""Captures of which a part isn't judged; and which servers are one."""
from __future__ import annotations

import re
from collections.abc import Sequence
from pathlib import Path

import pytest

from smblease.drive.capture_findings import Findings, Verdict, findings_in
from smblease.program import judge
from tests import needs
from tests.drive import hand_made
from tests.drive.commands import Ran, ran
from tests.drive.hand_made import H, Line, Made, R, W
from tests.drive.judging import IN_PART, NOTHING_JUDGED, SAFE, UNSAFE
from tests.drive.scenarios import SCENARIOS, reads_still

COUNTS = "2 connections, 9 frames, 0 of them unreadable"
FILE = r"file 10.0.0.1:445 \\server\share\f"
ONE, OTHER = "10.0.0.2:50001", "10.0.0.3:50002"
LOST = f"client {OTHER}: not judged after packet 8 at 0.07, something of it is missing or can't be read"


def verdict_on(*lines: str, is_whole: bool = True) -> Verdict:
    return findings_in([*lines, COUNTS]).verdict(is_whole)


# ---- what leasecheck finds, and the verdict


@pytest.mark.parametrize("word", ["no client of it is", "what is shown can't have happened",
                                  "it can have happened in too many ways"])
def test_file_that_is_undecided(word: str) -> None:
    """Beside one that is safe it leaves the capture judged in part; beside one that is unsafe it doesn't matter."""
    undecided = f"file 10.0.0.1:445 \\\\server\\share\\g: not judged, {word}"
    assert verdict_on("safe", f"{FILE}: safe, {ONE}") is Verdict.SAFE
    assert verdict_on("safe", f"{FILE}: safe, {ONE}", undecided) is Verdict.IN_PART
    assert verdict_on("safe", f"{FILE}: safe, {ONE}", f"{undecided}, {ONE}, {OTHER}") is Verdict.IN_PART
    assert verdict_on("unsafe", f"{FILE}: unsafe, packet 8 at 0.07, {ONE}, {OTHER}", undecided) is Verdict.UNSAFE
    assert verdict_on("nothing judged", undecided) is Verdict.NOTHING_JUDGED


def test_something_that_is_left_out() -> None:
    assert verdict_on("safe", f"{FILE}: safe, {ONE}", is_whole=False) is Verdict.IN_PART
    assert verdict_on("unsafe", f"{FILE}: unsafe, packet 8 at 0.07, {ONE}, {OTHER}", is_whole=False) is Verdict.UNSAFE


def files_of(found: Findings) -> list[str]:
    return [line for line in found.lines() if line.startswith("file ")]


def test_client_that_is_not_judged() -> None:
    """Of its files none is safe; those of others are."""
    other = r"file 10.0.0.1:445 \\server\share\g"
    found = findings_in(["safe", f"{FILE}: safe, {ONE}, {OTHER}, {OTHER}", f"{other}: safe, {ONE}", LOST, COUNTS])
    assert found.verdict(True) is Verdict.IN_PART
    assert files_of(found) == [f"{FILE}: not judged, since {OTHER} isn't, {ONE}, {OTHER}, {OTHER}", f"{other}: safe, {ONE}"]
    assert list(found.lines())[2:] == [LOST, COUNTS]


def test_client_that_is_not_judged_of_an_unsafe_file() -> None:
    line = f"{FILE}: unsafe, packet 8 at 0.07, {ONE}, {OTHER}"
    found = findings_in(["unsafe", line, LOST, COUNTS])
    assert (found.verdict(True), files_of(found)) == (Verdict.UNSAFE, [line])


def test_names_that_look_like_findings() -> None:
    """What counts of a line stands at its end."""
    for name in ("a: safe", f"a: safe, {ONE}", "a: unsafe, packet 8 at 0.07", "a, b: not judged, no client of it is"):
        line = f"{FILE}{name}: safe, {OTHER}"
        found = findings_in(["safe", line, COUNTS])
        assert [(it.place, it.judged, it.clients) for it in found.files] == [(f"{FILE[4:]}{name}", "safe", (OTHER,))]
        assert list(found.lines()) == [line, COUNTS]


def test_number_of_unreadable_frames() -> None:
    assert findings_in(["nothing judged", "1 connections, 20 frames, 7 of them unreadable"]).counts.unread == 7


# ---- captures


def of_capture(folder: Path, data: bytes, words: Sequence[object] = ()) -> Ran:
    path = folder / "one.pcap"
    path.write_bytes(data)
    return ran("capture", [path, *words])


@needs.program("tshark")
def test_packet_that_is_left_out(tmp_path: Path) -> None:
    """There is a clash. Where one of the packets is missing the capture isn't safe, but for a last answer on its connection, of
    which nothing shows that it is missing."""
    made = Made()
    line, other = Line(made, 50001), Line(made, 50002)
    line.begins(1)
    line.opens(3, 11, 0xA1, R | W | H)
    other.begins(2)
    last = other.opens(3, 22, 0xB2, R | H) + 2
    reads_still(line)
    assert of_capture(tmp_path, made.data()).status == UNSAFE
    for number in sorted({*made.numbers[:-1]} - {last}):
        had = of_capture(tmp_path, made.data(order=[it for it in made.numbers if it != number]))
        assert had.status in (UNSAFE, IN_PART, NOTHING_JUDGED), f"without packet {number}\n{had.out}"


@needs.program("tshark")
def test_record_of_a_capture_that_is_judged_in_part(program: str, tmp_path: Path) -> None:
    """The record ends with what is printed, as remarks."""
    made = Made()
    line, before = Line(made, 50001), Line(made, 50009, begins=False)
    line.begins(1)
    line.opens(3, 11, 0xA1, R | W | H)
    before.asks(hand_made.read(3, 11))
    had = of_capture(tmp_path, made.data(), ["--record", tmp_path / "record"])
    assert (had.status, had.out.splitlines()[0]) == (IN_PART, "judged in part")
    text = (tmp_path / "record").read_text(encoding="utf-8")
    remarks = [f"# {it}" for it in had.out.splitlines()]
    assert text.splitlines()[-len(remarks):] == remarks and "# safe" not in text.splitlines()
    assert judge(program, text).is_safe


@needs.program("tshark")
def test_capture_that_ends_within_a_packet(tmp_path: Path) -> None:
    made = Made()
    SCENARIOS["one client with two keys"](made)
    assert of_capture(tmp_path, made.data()).status == SAFE
    assert of_capture(tmp_path, made.data()[:-3]).status == IN_PART


# ---- servers


@needs.program("tshark")
@pytest.mark.parametrize(("guids", "is_unsafe"), [((1, 1), True), ((1, 2), False)])
def test_servers_at_one_address(guids: tuple[int, int], is_unsafe: bool, tmp_path: Path) -> None:
    """Each ServerGuid is a server, and each has files of its own."""
    made = Made()
    line, other = Line(made, 50001), Line(made, 50002)
    line.begins(1, server=guids[0])
    line.opens(3, 11, 0xA1, R | W | H)
    other.begins(2, server=guids[1])
    other.opens(3, 22, 0xB2, R | H)
    reads_still(line)
    for side in ("client", "server"):
        had = of_capture(tmp_path, made.data(), ["--at", side])
        assert had.status == (UNSAFE if is_unsafe else SAFE)
        named = re.findall(r"file 127\.0\.0\.1:445(?:#([-0-9a-f]+))? ", had.out)
        assert named == ([""] if is_unsafe else ["01010101-0101-0101-0101-010101010101", "02020202-0202-0202-0202-020202020202"])
