"""QUERY_INFO and QUERY_DIRECTORY: which classes there are, and how long each answer is (MS-FSCC 2.4, 2.5)."""
from __future__ import annotations

import re
import struct
from pathlib import Path

import pytest

from smblease import Status
from smblease.drive.headers import Command
from smblease.serve.server_process import ServerProcess
from tests.paths import TOP
from tests.serve.conftest import Connect
from tests.serve.requests import Body, create, wire, write

FILE, FILESYSTEM, SECURITY = 1, 2, 3
# The bytes of a class with no name in it; of one with a name, those before it, and the name's.
NAME = "file".encode("utf-16le")
OF_FILE = {4: 40, 5: 24, 6: 8, 7: 4, 8: 4, 14: 8, 16: 4, 17: 4, 18: 100 + 2 + len(NAME), 21: 4 + len(NAME),
           22: 24 + len("::$DATA") * 2, 28: 16, 34: 56, 35: 8, 48: 4 + len(NAME)}
OF_FILESYSTEM = {1: 18 + len("leasecheck") * 2, 3: 24, 4: 8, 5: 12 + len("NTFS") * 2, 7: 32, 11: 28}
# An entry's bytes before its name.
OF_DIRECTORY = {1: 64, 2: 68, 3: 94, 12: 12, 37: 104, 38: 80}


def query(file_id: int, kind: int, number: int, most: int = 4096) -> Body:
    return Command.QUERY_INFO, struct.pack("<HBBLHHLLL16s", 41, kind, number, most, 0, 0, 0, 0, 0, wire(file_id)) + b"\0"


def listing(file_id: int, number: int) -> Body:
    text = "file".encode("utf-16le")
    return Command.QUERY_DIRECTORY, struct.pack("<HBBL16sHHL", 33, number, 1, 0, wire(file_id), 96, len(text), 4096) + text


@pytest.mark.parametrize("kind, sizes", [
    pytest.param(FILE, OF_FILE, id="file"), pytest.param(FILESYSTEM, OF_FILESYSTEM, id="filesystem"),
])
def test_classes(shared: ServerProcess, connect: Connect, kind: int, sizes: dict[int, int]) -> None:
    one = connect(shared)
    file_id = one.open(create("file"))
    answers = {number: one.ask(query(file_id, kind, number)) for number in range(80)}
    assert {number: it.number(68, 4) for number, it in answers.items() if it.status == Status.SUCCESS} == sizes
    assert {it.status for number, it in answers.items() if number not in sizes} == {Status.INVALID_INFO_CLASS}


@pytest.mark.parametrize("number, most, expected", [
    (5, 24, Status.SUCCESS), (5, 23, Status.BUFFER_OVERFLOW), (18, 50, Status.BUFFER_OVERFLOW),
])
def test_an_answer_that_does_not_fit(shared: ServerProcess, connect: Connect, number: int, most: int, expected: Status) -> None:
    """What fits of it is given (3.3.5.20.1)."""
    one = connect(shared)
    answer = one.ask(query(one.open(create("file")), FILE, number, most))
    assert (answer.status, answer.number(68, 4)) == (expected, most)


def test_a_descriptor_that_does_not_fit(shared: ServerProcess, connect: Connect) -> None:
    """Nothing of it is given (3.3.5.20.3)."""
    one = connect(shared)
    file_id = one.open(create("file"))
    assert [one.status(query(file_id, SECURITY, 0, most)) for most in (72, 71)] == [Status.SUCCESS, Status.BUFFER_TOO_SMALL]


def test_what_is_said_of_a_file(served: ServerProcess, connect: Connect) -> None:
    one = connect(served)
    file_id = one.open(create("file"))
    one.ask(write(file_id, 0, bytes(5000)))
    standard = one.ask(query(file_id, FILE, 5))
    allocated, length, links, is_deleting, is_folder = struct.unpack("<QQLBB", standard.part(72, 22))
    assert (length, links, is_deleting, is_folder) == (5000, 1, 0, 0) and allocated >= length
    name = one.ask(query(file_id, FILE, 48))
    assert name.part(72, name.number(68, 4)) == struct.pack("<L", len(NAME)) + NAME


def test_entries_of_a_folder(shared: ServerProcess, connect: Connect) -> None:
    one = connect(shared)
    one.open(create("file"))
    folder = one.open(create("", access=0x81, disposition=1, options=1))
    answers = {number: one.ask(listing(folder, number)) for number in range(64)}
    found = {number: it.part(72, it.number(68, 4)) for number, it in answers.items() if it.status == Status.SUCCESS}
    assert {number: len(it) - len(NAME) for number, it in found.items()} == OF_DIRECTORY
    assert all(it.endswith(NAME) for it in found.values())
    assert {it.status for number, it in answers.items() if number not in OF_DIRECTORY} == {Status.INVALID_INFO_CLASS}


def test_the_page_has_these_classes() -> None:
    page = Path(TOP / "docs/SERVE.md").read_text(encoding="utf-8")
    rows = re.findall(r"^\| (a file|the file system|an entry of a folder) \| ([\d, ]+) \|", page, re.M)
    assert [(what, [int(it) for it in numbers.split(", ")]) for what, numbers in rows] == [
        ("a file", list(OF_FILE)), ("the file system", list(OF_FILESYSTEM)), ("an entry of a folder", list(OF_DIRECTORY))]
