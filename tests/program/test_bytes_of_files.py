"""`ack @FILE` and `show KIND @FILE`: a file's bytes give what the same bytes do as digits. Files that can't be read are told."""
from __future__ import annotations

import random
from pathlib import Path

import pytest

from tests.program.ran import ACKNOWLEDGMENT, BREAK, Ended, run, unread

KINDS = ("ask", "reply", "break", "ack", "response")
LEASE = "0000000010000400000018002000000052714c7300000000000102030405060708090a0b0c0d0e0f07000000000000000000000000000000"
MESSAGES = (BREAK, ACKNOWLEDGMENT, LEASE, "", BREAK[:-2], f"{LEASE}00", f"38{LEASE[2:]}")


@pytest.mark.parametrize("words", [("ack",), *(("show", kind) for kind in KINDS)], ids=" ".join)
@pytest.mark.parametrize("message", MESSAGES, ids=range(len(MESSAGES)))
def test_as_of_digits(words: tuple[str, ...], message: str, tmp_path: Path) -> None:
    path = tmp_path / "message"
    path.write_bytes(bytes.fromhex(message))
    digits = run([*words, message])
    assert run([*words, f"@{path}"]) == digits
    assert run([*words, "@-"], bytes.fromhex(message)) == digits


def test_random_bytes(chooser: random.Random, tmp_path: Path) -> None:
    path = tmp_path / "message"
    for _ in range(100):
        message = bytes.fromhex(chooser.choice(MESSAGES))
        if chooser.randrange(2):
            message = message[:chooser.randrange(len(message) + 1)] + chooser.randbytes(chooser.randrange(8))
        path.write_bytes(message)
        words = chooser.choice([("ack",), *(("show", kind) for kind in KINDS)])
        assert run([*words, f"@{path}"]) == run([*words, message.hex()]), message.hex()


def test_more_than_a_command_line_holds(tmp_path: Path) -> None:
    path = tmp_path / "message"
    path.write_bytes(bytes.fromhex(BREAK) + bytes(1_000_000))
    assert run(["show", "break", f"@{path}"]) == Ended(
        0, b"break 00010203-0405-0607-0809-0a0b0c0d0e0f RWH to RH ack\nrest 1000000\n")


def test_files_that_cannot_be_read(tmp_path: Path) -> None:
    assert run(["ack", f"@{tmp_path}"]) == unread(tmp_path, "it is a folder")
    assert run(["show", "ask", f"@{tmp_path}/none"]) == unread(f"{tmp_path}/none", "there is no such file")
    assert run(["show", "ask", "@"]) == unread("", "there is no such file")


def test_digits_of_a_file_are_bytes(tmp_path: Path) -> None:
    """A file of digits isn't read as digits."""
    path = tmp_path / "digits"
    path.write_text(BREAK, encoding="ascii")
    assert run(["show", "break", f"@{path}"]).faults.startswith(b"fault 2 WrongSize at 0\n")
