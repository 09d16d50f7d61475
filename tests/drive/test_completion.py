"""What bash completes of smblease-run and its kin, by the files that tools/completion makes and the wheel brings."""
from __future__ import annotations

import re
import subprocess
from pathlib import Path

import pytest

from smblease.serve.dialects import NAMES
from tests import needs
from tests.paths import TOP
from tests.program import completed

pytestmark = needs.program("bash")
COMPLETION = TOP / "completion"
COMMANDS = {"drive/run": "smblease-run", "drive/explore": "smblease-explore", "drive/compare": "smblease-compare",
            "drive/capture": "smblease-capture", "serve/run": "smblease-serve", "serve/torture": "smblease-torture"}
# Where an option or its other form stands in a list of options.
OPTION = re.compile(r"^  (-[\w-]+)(?: [^\n,]*)?(?:, (--[\w-]+))?", re.M)
RULES = {"profile", "by-client,as-free", "by-client,whole", "by-key,as-free", "by-key,whole"}


def offered(name: str, *words: str) -> set[str]:
    return completed.offered(COMPLETION / name, f"_{name.replace('-', '_')}", name, *words)


def test_the_files_are_made_anew(tmp_path: Path) -> None:
    subprocess.run([TOP / "tools" / "completion", tmp_path], check=True)
    assert {it.name for it in tmp_path.iterdir()} == set(COMMANDS.values())
    for made in tmp_path.iterdir():
        kept = COMPLETION / made.name
        assert kept.read_text(encoding="utf-8") == made.read_text(encoding="utf-8"), "`make man` writes them anew"


@pytest.mark.parametrize("command", COMMANDS)
def test_each_option_of_help_is_known(command: str) -> None:
    told = subprocess.run([TOP / command, "--help"], stdout=subprocess.PIPE, check=True, text=True).stdout
    has = {it for found in OPTION.findall(told) for it in found if it}
    assert {"-h", "--help", "--version"} < has
    assert offered(COMMANDS[command], "-") == has


@pytest.mark.parametrize("name, option, words", [
    ("smblease-run", "--rules", RULES), ("smblease-run", "--expect", RULES), ("smblease-serve", "--rules", RULES),
    ("smblease-run", "--dialect", {"2.1", "3.0", "3.0.2", "3.1.1"}), ("smblease-serve", "--max", {*NAMES}),
    ("smblease-capture", "--at", {"client", "server"}), ("smblease-explore", "--keep", {"charged", "all"}),
])
def test_the_words_of_an_option_are_known(name: str, option: str, words: set[str]) -> None:
    assert offered(name, option, "") == words


@pytest.mark.parametrize("line, given", [
    pytest.param("smblease-capture on\t", "<one.pcapng>", id="a capture"),
    pytest.param("smblease-capture --at s\ton\t", "<--at><server><one.pcapng>", id="a word and a capture"),
    pytest.param("smblease-run --served tw\t", "<--served><two words.txt>", id="a file with a space"),
    pytest.param("smblease-run --record on\t", "<--record><one.pcapng>", id="a file of an option"),
    pytest.param("smblease-serve --fol\ton\t", "<--folder><one.pcapng>", id="an option and its file"),
    pytest.param("smblease-serve --port on\t", "<--port><on>", id="a number is no file"),
    pytest.param("smblease-torture on\t", "<on>", id="a test is no file"),
])
def test_what_is_typed(tmp_path: Path, line: str, given: str) -> None:
    for name in ("one.pcapng", "two words.txt"):
        (tmp_path / name).touch()
    assert completed.typed(COMPLETION / line.split()[0], line, tmp_path) == f"{given}\n"
