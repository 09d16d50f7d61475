"""What bash completes of a command line of the program, by the file that `make install` installs."""
from __future__ import annotations

import re
import subprocess
from pathlib import Path

import pytest

from tests import needs
from tests.paths import TOP
from tests.program import completed

pytestmark = needs.program("bash")
COMPLETION = TOP / "completion" / "leasecheck"
COMMAND = re.compile(r"^  (\w+)  +\S", re.M)
OPTION = re.compile(r"(?<![\w-])--?[a-zA-Z]\w*")


def help_of(program: str, *command: str) -> str:
    return subprocess.run([program, *command, "--help"], stdout=subprocess.PIPE, check=True, text=True).stdout


def part_of(text: str, heading: str) -> str:
    found = re.search(rf"^{heading}:\n((?:[ ].*\n|\n)+)", text, re.M)
    assert found
    return found[1]


def offered(*words: str) -> set[str]:
    return completed.offered(COMPLETION, "_leasecheck", "leasecheck", *words)


@pytest.fixture(name="folder")
def folder_of_files(tmp_path: Path) -> Path:
    for name in ("shared.txt", "two words.txt"):
        (tmp_path / name).touch()
    (tmp_path / "records").mkdir()
    (tmp_path / "records" / "first").touch()
    return tmp_path


@needs.OWN_HELP
def test_each_command_is_known(program: str) -> None:
    assert offered("") == set(COMMAND.findall(part_of(help_of(program), "Commands"))) != set()


def test_the_options_of_the_program_are_known(program: str) -> None:
    assert offered("-") == set(OPTION.findall(re.sub(r"(?m)^ {10,}.*$", "", part_of(help_of(program), "Options"))))


def test_each_option_of_a_command_is_known(program: str) -> None:
    for command in COMMAND.findall(part_of(help_of(program), "Commands")):
        has = set(OPTION.findall(re.sub(r"(?m)^ {10,}.*$", "", part_of(help_of(program, command), "Options"))))
        assert {"-h", "--help"} <= has
        assert offered(command, "-") == has, command


@pytest.mark.parametrize("command, option", [("replay", "--rules"), ("capture", "--at")])
def test_the_words_of_an_option_are_known(program: str, command: str, option: str) -> None:
    words = re.search(rf"{option}[^[]*\[possible values: ([^]]*)\]", help_of(program, command))
    assert words and offered(command, option, "") == set(words[1].split(", "))


def test_each_kind_is_known(program: str) -> None:
    kinds = re.search(r"\[possible values: (.*)\]", help_of(program, "show"))
    assert kinds and offered("show", "") == set(kinds[1].split(", "))


@pytest.mark.parametrize("line, given", [
    pytest.param("leasecheck jud\tsh\t", "<judge><shared.txt>", id="a command and a file"),
    pytest.param("leasecheck judge --ex\tsh\t", "<judge><--explain><shared.txt>", id="an option before the file"),
    pytest.param("leasecheck show rep\t00", "<show><reply><00>", id="a kind"),
    pytest.param("leasecheck replay tw\t", "<replay><two words.txt>", id="a file with a space"),
    pytest.param("leasecheck replay --ru\tby-key,w\tsh\t", "<replay><--rules><by-key,whole><shared.txt>", id="rules and a file"),
    pytest.param("leasecheck draw rec\tfi\t", "<draw><records/first>", id="a file in a folder"),
    pytest.param("leasecheck ack sh\t", "<ack><sh>", id="bytes are no file"),
    pytest.param("leasecheck ack @sh\t", "<ack><@shared.txt>", id="a file of bytes"),
    pytest.param("leasecheck show break @tw\t", "<show><break><@two words.txt>", id="a file of bytes with a space"),
    pytest.param("leasecheck ack @rec\tfi\t", "<ack><@records/first>", id="a file of bytes in a folder"),
    pytest.param("leasecheck show @sh\t", "<show><@sh>", id="a kind comes first"),
    pytest.param("leasecheck replay shared.txt tw\t", "<replay><shared.txt><tw>", id="no second file"),
    pytest.param("leasecheck other sh\t", "<other><sh>", id="no such command"),
])
def test_what_is_typed(folder: Path, line: str, given: str) -> None:
    assert completed.typed(COMPLETION, line, folder) == f"{given}\n"
