"""The program with each of its growths refused.

A run gives the whole answer, or prints nothing and ends with status 1 and `fault memory`, or
says what is refused without its second line; while the command line is read it ends with status 1 or 2 and any message. A record
of several blocks may have been begun: then a beginning of it is printed before that fault. Machines that speak lines write what
they answered before.
"""
from __future__ import annotations

from pathlib import Path
from typing import Sequence

import pytest

from tests.paths import RECORDS, SCHEDULES, TESTS, built_program, name_of
from tests.program.ran import ACKNOWLEDGMENT, BREAK, Ended
from tests.program.test_cut_messages import CHAIN
from tests.program.test_records import VERDICTS
from tests.refused_growths.refusing import Fits, Refusing

pytestmark = pytest.mark.long
QUIET = "2c00000000000000000102030405060708090a0b0c0d0e0f0100000000000000000000000000000000000000"
RECONNECT = "0000000010000400000018001000000044486e430000000001000000000000000100000000000000"
REPLY = "0000000010000400000018002000000052714c7300000000000102030405060708090a0b0c0d0e0f03000000020000000000000000000000"
MISSING = "no/such/file"
# Words of command lines, the status that they end with, and words that end as they do before anything is read.
WORDS: list[tuple[list[str], int, list[str]]] = [
    (["--help"], 0, ["--help"]), (["show", "--help"], 0, ["show", "--help"]), (["--version"], 0, ["--version"]),
    ([], 2, []), (["ack"], 2, ["ack"]), (["show", "record", BREAK], 2, ["show", "record", BREAK]),
    *((["ack", digits], status, ["ack", "0x"]) for digits, status in (
        (BREAK, 0), (QUIET + "aabb", 0), (BREAK[:-2], 1), ("2g", 1), ("0x2c:00 " + BREAK[4:], 0), ("2c::00", 1))),
    *((["show", kind, digits], status, ["show", "break", "0x"]) for kind, digits, status in (
        ("ask", "", 0), ("ask", CHAIN, 0), ("ask", RECONNECT, 0), ("ask", CHAIN[:160], 1),
        ("reply", REPLY, 0), ("reply", RECONNECT, 0),
        ("break", BREAK, 0), ("break", QUIET + "00", 0), ("ack", ACKNOWLEDGMENT, 0), ("response", ACKNOWLEDGMENT + "aabb", 0),
        ("response", "24", 1))),
]
# The schedules that are drawn too.
DRAWN = ("break_answered", "break_timer", "cut_with_a_buffered_write", "two_files")


def growths_of(folder: Path, words: Sequence[str]) -> int:
    """How many growths these words make, which end before anything is read."""
    growths = Refusing(folder, [built_program(), *words]).run().growths
    assert growths is not None
    return growths


def fits_program(early: int, faults: Sequence[bytes]) -> Fits:
    """`early` growths at most are made while the command line is read."""
    def fits(whole: Ended, ended: Ended, number: int) -> bool:
        if ended == whole:
            return True
        if ended.out:
            return False
        is_early = number <= early and ended.status in (1, 2)
        is_cut = ended.status == whole.status == 1 and ended.faults == whole.faults[:whole.faults.find(b"\n") + 1]
        return is_early or is_cut or (ended.status == 1 and ended.faults in faults)
    return fits


def check_reading(folder: Path, task: list[str], path: object, status: int) -> None:
    """A command that reads a file."""
    fits = fits_program(growths_of(folder, [*task, MISSING]), (b"fault memory\n",))
    Refusing(folder, [built_program(), *task, str(path)]).check(status, fits)


@pytest.mark.parametrize(("words", "status", "early"), WORDS, ids=[" ".join(it[0])[:60] or "no words" for it in WORDS])
def test_command_line(tmp_path: Path, words: list[str], status: int, early: list[str]) -> None:
    fits = fits_program(growths_of(tmp_path, early), (b"fault memory\n",))
    Refusing(tmp_path, [built_program(), *words]).check(status, fits)


@pytest.mark.parametrize("task", ["replay", "judge", "draw", "capture"])
def test_missing_file(tmp_path: Path, task: str) -> None:
    check_reading(tmp_path, [task], MISSING, 1)


@pytest.mark.parametrize("task", [["replay"], ["replay", "--messages"], ["replay", "--json"]], ids=" ".join)
@pytest.mark.parametrize("schedule", SCHEDULES, ids=name_of)
def test_replay(tmp_path: Path, task: list[str], schedule: Path) -> None:
    check_reading(tmp_path, task, schedule, 0)


@pytest.mark.parametrize("task", [["judge"], ["judge", "--explain"], ["judge", "--json"]], ids=" ".join)
@pytest.mark.parametrize("record", RECORDS, ids=name_of)
def test_judge(tmp_path: Path, task: list[str], record: Path) -> None:
    check_reading(tmp_path, task, record, VERDICTS[record.name].status)


@pytest.mark.parametrize("path", [*RECORDS, *(it for it in SCHEDULES if it.name in DRAWN)], ids=name_of)
def test_draw(tmp_path: Path, path: Path) -> None:
    """A picture is drawn of any record that is read."""
    check_reading(tmp_path, ["draw"], path, int(path.name == "line_that_is_none"))


@pytest.mark.parametrize("more", [[], ["--json"], ["--record"], ["--record", "--json"]], ids=" ".join)
@pytest.mark.parametrize("side", ["client", "server"])
def test_capture(tmp_path: Path, side: str, more: list[str]) -> None:
    check_reading(tmp_path, ["capture", "--at", side, *more], TESTS / "captures" / "two_caches", 3)


def test_line_of_a_capture_that_is_none(tmp_path: Path) -> None:
    (tmp_path / "capture").write_text("end 1 0.5 1\nend 1\n", encoding="ascii")
    check_reading(tmp_path, ["capture"], tmp_path / "capture", 1)


@pytest.mark.parametrize("task", [["replay"], ["replay", "--messages"]], ids=" ".join)
def test_replay_of_several_blocks(tmp_path: Path, task: list[str]) -> None:
    """The last lines of the record are longer than those before, so that the text grows once more after some of it was
    written."""
    path = tmp_path / "schedule"
    begun = ["file " + "61" * 4_096, "client 11111111-1111-1111-1111-111111111111", "connect 1", "open 1 1 rw rw RWH", "serve 1",
             "take 1", "read 1 1", "serve 1", "take 1"]
    ended = ["write 1 1 100000 62", "read 1 1", "read 1 1"]
    path.write_text("\n".join([*begun, *["read 1 1"] * 20, *ended, ""]), encoding="ascii")
    fits_whole = fits_program(growths_of(tmp_path, [*task, MISSING]), (b"fault memory\n",))

    def fits(whole: Ended, ended: Ended, number: int) -> bool:
        is_begun = bool(ended.out) and ended == Ended(1, whole.out[:len(ended.out)], b"fault memory\n")
        return is_begun or fits_whole(whole, ended, number)
    Refusing(tmp_path, [built_program(), *task, str(path)]).check(0, fits)


@pytest.mark.parametrize(("name", "task"), [("clients", "client"), ("servers", "server")])
def test_conversation(tmp_path: Path, name: str, task: str) -> None:
    """What was answered before memory ran out stays written, and why lines were refused."""
    lines = (TESTS / "conversations" / name).read_text(encoding="ascii").split("\n")
    given = "\n".join(line[1:].removeprefix(" ") for line in lines if line.startswith(">"))
    early = growths_of(tmp_path, [task])

    def fits(whole: Ended, ended: Ended, number: int) -> bool:
        reasons = ended.faults.removesuffix(b"fault memory\n")
        wants = ended.status == 1 and reasons != ended.faults and whole.faults.startswith(reasons)
        is_early = number <= early and ended.status in (1, 2)
        return ended == whole or (whole.out.startswith(ended.out) and (wants or is_early))
    Refusing(tmp_path, [built_program(), task], given.encode()).check(0, fits)
