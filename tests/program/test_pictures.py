"""`draw` prints a picture of each schedule and each record that is kept, and of damaged ones; what is neither is refused as
`judge` or `replay` does."""
from __future__ import annotations

import random
import re
from pathlib import Path

import pytest

from tests.paths import EXAMPLE, RECORDS, RUNS, SCHEDULES, TOP, files_of, name_of
from tests.program.asking import requests_of
from tests.program.drawn import Picture, label
from tests.program.explaining import damaged, facts_of
from tests.program.ran import Ended, run
from tests.program.straying import StrayingSchedule

MOST = 5000
PICTURES = {"shared.svg": "examples/shared.txt", "lease_outlives_its_open.svg": "drive/found/lease_outlives_its_open.record"}
FOUND = TOP / "drive" / "found"
ALL_RECORDS = [*RECORDS, *RUNS, *files_of(FOUND, "*.record")]


def ran(text: bytes, *words: str) -> Ended:
    return run([*words, "-"], text)


def comments_of(lines: list[str]) -> list[str]:
    """Of each fact what the line before it says, where that is a comment, with what can't be shown as it is shown."""
    pairs = [(was, it) for was, it in zip(["", *lines], lines) if it and not it.startswith("#")]
    said = [was[1:].removeprefix(" ") if was.startswith("#") else "" for was, _ in pairs]
    return [re.sub("[^ -~]", "\ufffd", it) for it in said]


def check_record(text: bytes) -> None:
    drawn, explained = ran(text, "draw"), ran(text, "judge", "--explain")
    if explained.status not in (0, 3) and explained.faults:
        assert drawn == Ended(1, b"", explained.faults)
        return
    assert (drawn.status, drawn.faults) == (0, b""), text
    lines = text.decode("latin-1").split("\n")
    Picture(drawn.out.decode(), facts_of(lines), comments=comments_of(lines)).look_at(explained.out.decode())


@pytest.mark.parametrize("path", ALL_RECORDS, ids=name_of)
def test_kept_record(path: Path) -> None:
    check_record(path.read_bytes())


@pytest.mark.parametrize("number", range(200))
def test_damaged_record(number: int, chooser: random.Random) -> None:
    lines = chooser.choice(ALL_RECORDS).read_text(encoding="latin-1").splitlines() or [f"joined {number + 1}"]
    check_record("".join(f"{it}\n" for it in damaged(chooser, lines)).encode("latin-1"))


def test_long_record() -> None:
    check_record(b"start 1 61\njoined 1\n" + b"sent 1\ntook 1\n" * 150)


def test_no_record() -> None:
    check_record(b"")


def test_empty_lines() -> None:
    check_record(b"\nstart 1 61\n# said of nothing\n\n# said of it\njoined 1\n\n")


def check_schedule(text: bytes, program: str) -> Picture | None:
    drawn, replayed = ran(text, "draw"), ran(text, "replay", "--messages")
    if replayed.status:
        assert drawn == Ended(1, b"", replayed.faults)
        return None
    assert (drawn.status, drawn.faults) == (0, b"")
    record = replayed.out.decode("latin-1").splitlines()
    messages = [it.split(" ", 3)[3] for it in record if re.match("# (sent|took) ", it)]
    picture = Picture(drawn.out.decode(), facts_of(record), messages, requests_of(program, text.decode("ascii")))
    picture.look_at(ran(replayed.out, "judge", "--explain").out.decode())
    return picture


@pytest.mark.parametrize("path", [EXAMPLE, *SCHEDULES, *files_of(FOUND, "*.schedule")], ids=name_of)
def test_kept_schedule(path: Path, program: str) -> None:
    check_schedule(path.read_bytes(), program)


@pytest.mark.parametrize("number", range(20))
def test_random_schedule(number: int, chooser: random.Random, program: str) -> None:
    lines = StrayingSchedule(chooser).text().splitlines()
    first = next(place for place, line in enumerate(lines) if line.startswith("connect"))
    lines[first:first] = [f"connect {number % 5 + 1}", f"cut {number % 3 + 1}"]
    assert check_schedule("".join(f"{it}\n" for it in lines).encode(), program)


def test_what_becomes_of_requests(program: str) -> None:
    """A request is taken, or lost with its connection, or still on its way."""
    picture = check_schedule(b"""\
file 61
client 11111111-1111-1111-1111-111111111111
connect 1
open 1 1 rw rw RWH durable
serve 1
take 1
write 1 1 0 62
flush 1 1
cut 1
notice 1
connect 1
serve 1
take 1
flush 1 1
""", program)
    assert picture
    asked = [(one.end is None, one.is_taken) for one in picture.asked]
    labels = [label(it)[1] for it in picture.requests]
    assert list(zip(labels, asked)) == [
        ("open file 1, lease RWH, durable", (False, True)),
        ("write 1, 1 byte", (False, False)),
        ("open file 1 again", (False, True)),
        ("write 1, 1 byte", (True, False)),
    ]


def test_most_requests() -> None:
    """Of too many requests none are drawn."""
    begin = b"file -\nclient 11111111-1111-1111-1111-111111111111\nconnect 1\nopen 1 1 rw rw none\nserve 1\ntake 1\n"
    for count, drawn in ((MOST - 1, MOST), (MOST, 0)):
        text = ran(begin + b"read 1 1\n" * count, "draw").out
        assert text.count(b"<g id='request-") == drawn


def test_most_facts() -> None:
    many = b"start 1 -\n" + b"opened 1 1\n" * (MOST - 1)
    assert ran(many, "draw").status == 0
    refused = f"fault picture TooMany\nat most {MOST} facts; there are {MOST + 1}\n".encode()
    assert ran(many + b"opened 1 1\n", "draw") == Ended(1, b"", refused)


@pytest.mark.parametrize("name", PICTURES)
def test_picture_of_the_docs(name: str) -> None:
    assert ran((TOP / PICTURES[name]).read_bytes(), "draw").out == (TOP / "docs" / "pictures" / name).read_bytes()


@pytest.mark.parametrize(("text", "task"), [
    (b"start 1 -\nopen 1 1 r r none\n", "judge"), (b"file -\nclient\n", "replay"), (b"nonsense\n", "judge"),
    (b"file -\nopened 1 1\n", "replay"), (b"\xef\xbb\xbfstart 1 -\n", "judge"), (b"# remark\nstart 1 x\n", "judge"),
])
def test_neither_is_refused_as_the_one_of_which_it_has_more_lines(text: bytes, task: str) -> None:
    refused = ran(text, task).faults
    assert refused and ran(text, "draw") == Ended(1, b"", refused)


def test_eight_clients(program: str) -> None:
    """They are within 1,600 pixels, and what three requests of one client wait for has ways of its own."""
    clients = range(1, 9)
    lines = ["file 61", *(f"client {it}1111111-1111-1111-1111-111111111111" for it in clients),
             *(f"connect {it}" for it in clients), *(f"open {it} 1 rw rw none" for it in clients),
             "serve 3", "take 3", *["read 3 1"] * 4, "serve 3", "read 3 1"]
    picture = check_schedule("".join(f"{it}\n" for it in lines).encode(), program)
    assert picture and int(picture.root.attrib["width"]) <= 1600
    assert [picture.way(it) for it in range(8, 13)] == [0, 1, 2, 2, 0]


@pytest.mark.parametrize(("comment", "shown"), [
    ("x" * 62, "x" * 62),
    ("sent 1 created " + "0a" * 60, "sent 1 created " + "0a" * 21 + "..."),
    ("sent 1 break " + "0a" * 60, "sent 1 break " + "0a" * 22 + "..."),
    ("words " * 20, "words words words words words words words words words..."),
])
def test_long_remark(comment: str, shown: str) -> None:
    record = f"start 1 61\n# {comment}\njoined 1\n".encode()
    check_record(record)
    assert f">{shown}<".encode() in ran(record, "draw").out
