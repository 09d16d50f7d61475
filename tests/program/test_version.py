"""One version stands for the program, the library and the Python package; the program names the kit that it was proved with."""
from __future__ import annotations

import re
import subprocess
import sys

import pytest

from tests import needs
from tests.paths import PACKAGES, TOP
from tests.program.ran import Ended, run

HEADER = (TOP / "include" / "smblease.h").read_text(encoding="utf-8")
VERSION = ".".join(re.findall(r"^#define SMBLEASE_VERSION_[A-Z]+ (\d+)$", HEADER, re.M))
PROGRAM_SAYS = f"leasecheck {VERSION}\n{(TOP / 'kit.txt').read_text(encoding='utf-8')}"


def commit_line() -> str:
    """What `--version` says last, where it is known of which commit this tree is."""
    commit = subprocess.run([TOP / "tools" / "commit"], stdout=subprocess.PIPE, text=True, check=True).stdout
    return commit and f"commit {commit}"


def said_by(command: str) -> str:
    """What a command of the package says to `--version`."""
    return f"{command} {VERSION}\n{commit_line()}"


@pytest.mark.parametrize("word", ["--version", "-V"])
def test_version(word: str) -> None:
    assert run([word]) == Ended(0, PROGRAM_SAYS.encode())


@needs.DIST
@pytest.mark.parametrize("word", ["--version", "-V"])
def test_a_clone_says_its_commit(word: str) -> None:
    assert commit_line().count("\n") == 1 and re.match(r"commit [0-9a-f]{40}(-changed)?$", commit_line())
    env = {"PATH": "/usr/bin:/bin"}
    assert run([word], env=env, program=str(TOP / "leasecheck")) == Ended(0, (PROGRAM_SAYS + commit_line()).encode())


@needs.DIST
def test_a_version_that_cannot_be_written() -> None:
    with open("/dev/full", "wb") as full:
        done = subprocess.run([TOP / "leasecheck", "--version"], stdout=full, stderr=subprocess.PIPE, check=False)
    assert (done.returncode, done.stderr) == (1, b"fault output\n")


@needs.DIST
def test_version_of_the_package() -> None:
    """The library that the package finds has it too."""
    program = """
import smblease
from smblease._library import library
has = library.smblease_version()
print(smblease.__version__, f"{has.major}.{has.minor}.{has.patch}")
"""
    env = {"PYTHONPATH": PACKAGES, "PATH": "/usr/bin:/bin"}
    printed = subprocess.run([sys.executable, "-c", program], env=env, stdout=subprocess.PIPE, text=True, check=True).stdout
    assert printed == f"{VERSION} {VERSION}\n"


def test_versions_of_plain_rust() -> None:
    found = {path: re.findall(r'^version = "(.*)"$', path.read_text(encoding="utf-8"), re.M)
             for path in TOP.glob("rust/*/Cargo.toml")}
    assert found and set(map(tuple, found.values())) == {(VERSION,)}
