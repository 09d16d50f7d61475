"""What the commands of drive/ and serve/ call themselves, and what they say of packages that aren't there."""
from __future__ import annotations

import subprocess
import sys
from pathlib import Path

import pytest

from smblease.drive.called import name_of
from tests.paths import EXAMPLE, TOP
from tests.program.test_version import said_by

COMMANDS = {"drive/run": "smblease-run", "drive/explore": "smblease-explore", "drive/compare": "smblease-compare",
            "drive/capture": "smblease-capture", "serve/run": "smblease-serve", "serve/torture": "smblease-torture"}
# Without any folder of packages.
BARE = (sys.executable, "-I", "-S")


def ran(command: str, *words: object) -> "subprocess.CompletedProcess[str]":
    return subprocess.run([*BARE, TOP / command, *map(str, words)], stdin=subprocess.DEVNULL, capture_output=True, text=True,
                          check=False, timeout=60)


@pytest.mark.parametrize("command", COMMANDS)
def test_help_needs_no_package(command: str) -> None:
    told = ran(command, "--help")
    assert (told.returncode, told.stderr) == (0, "") and told.stdout.startswith(f"usage: {command} [-h] [--version] ")
    assert "smblease-" not in told.stdout


@pytest.mark.parametrize("command", COMMANDS)
def test_version_is_that_of_the_header(command: str) -> None:
    told = ran(command, "--version")
    assert (told.returncode, told.stdout, told.stderr) == (0, said_by(command), "")


@pytest.mark.parametrize("command, words, said", [
    ("drive/run", [EXAMPLE, "--served"], "impacket is missing"),
    ("drive/explore", ["--seed", 1, "--count", 1, "--served"], "impacket is missing"),
    ("drive/compare", [EXAMPLE, "--served"], "impacket is missing"),
    ("serve/run", ["--port", 0, "--share", "s", "--user", "u%p"], "impacket is missing, which --user needs"),
    ("serve/torture", ["--smbd"], "impacket is missing, which --smbd needs"),
])
def test_impacket_is_missing(command: str, words: list[object], said: str) -> None:
    told = ran(command, *words)
    assert (told.returncode, told.stdout, told.stderr) == (1, "", f"{command}: {said}: tools/setup installs it\n")


def test_nothing_is_missing_where_nothing_is_driven(tmp_path: Path) -> None:
    """A record is compared without impacket."""
    had = subprocess.run([TOP / "leasecheck", "replay", EXAMPLE], stdout=subprocess.PIPE, check=True).stdout
    (tmp_path / "record").write_bytes(had)
    told = ran("drive/compare", EXAMPLE, "--record", tmp_path / "record")
    assert (told.returncode, told.stdout, told.stderr) == (0, "same\n", "")


@pytest.mark.parametrize("command", COMMANDS)
def test_name_is_the_one_that_was_called(command: str, monkeypatch: pytest.MonkeyPatch) -> None:
    monkeypatch.setattr(sys, "argv", [str(TOP / command)])
    assert name_of(command) == command
    monkeypatch.setattr(sys, "argv", [f"/usr/bin/{COMMANDS[command]}"])
    assert name_of(command) == COMMANDS[command]
