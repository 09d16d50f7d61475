"""`./leasecheck` and tools/current: which program is run, and why the one in dist/ isn't, where it can't be."""
from __future__ import annotations

import os
import shutil
import subprocess
from pathlib import Path

import pytest

from tests import needs
from tests.paths import TOP
from tests.program.ran import Ended

pytestmark = needs.DIST
PARTS = ("leasecheck", "tools", "dist", "kit.txt", "crates.txt", "crates", "include", "rust")
NOTHING = "neither cargo, which builds it from rust/ (rustup.rs has it), nor the command rt of the Rattle kit is on the path"
STALE = "rust/ was made from other sources, and make rust makes it anew"


@pytest.fixture(scope="module")
def copied(tmp_path_factory: pytest.TempPathFactory) -> Path:
    """The repository as far as the wrapper looks at it, without what was proved and built here."""
    folder = tmp_path_factory.mktemp("copied")
    for name in PARTS:
        if (TOP / name).is_dir():
            shutil.copytree(TOP / name, folder / name, ignore=shutil.ignore_patterns("out"))
        else:
            shutil.copy2(TOP / name, folder / name)
    return folder


def run(folder: Path, **stand_ins: str) -> Ended:
    """Runs the wrapper where these programs print these texts, and there is no kit."""
    programs = folder / "stand_ins"
    shutil.rmtree(programs, ignore_errors=True)
    shutil.rmtree(folder / "out", ignore_errors=True)
    programs.mkdir()
    for name, text in stand_ins.items():
        (programs / name).write_text(f"#!/bin/sh\necho '{text}'\n", encoding="ascii")
        (programs / name).chmod(0o755)
    had = subprocess.run([folder / "leasecheck", "--version"], env={"PATH": f"{programs}:/usr/bin:/bin"}, capture_output=True,
                         check=False)
    return Ended(had.returncode, had.stdout, had.stderr)


def test_first_and_second_run(copied: Path) -> None:
    first = run(copied)
    assert (first.status, first.faults) == (0, b"") and first.out.startswith(b"leasecheck ")
    again = subprocess.run([copied / "leasecheck", "--version"], env={"PATH": ""}, capture_output=True, check=False)
    assert (again.returncode, again.stdout) == (0, first.out)


@pytest.mark.parametrize(("stand_ins", "why"), [
    ({"getconf": "glibc 2.31"}, "this system has no glibc 2.34 or later, which the program in dist/x86_64-linux needs"),
    ({"uname": "Linux aarch64"}, "this is no x86-64 Linux machine with SSE4.2"),
], ids=["an older C library", "another processor"])
def test_machine_that_the_program_does_not_fit(copied: Path, stand_ins: dict[str, str], why: str) -> None:
    assert run(copied, **stand_ins) == Ended(1, b"", f"leasecheck: {why}; {NOTHING}\n".encode())


def test_other_sources(copied: Path) -> None:
    kit = copied / "kit.txt"
    text = kit.read_text(encoding="utf-8")
    kit.write_text("another kit\n", encoding="utf-8")
    try:
        assert run(copied) == Ended(1, b"", f"leasecheck: dist/x86_64-linux was made from other sources; {NOTHING}\n".encode())
    finally:
        kit.write_text(text, encoding="utf-8")


def test_modules_of_other_sources(copied: Path) -> None:
    """Cargo is there, and would build what isn't this program."""
    made, text = copied / "rust" / "SOURCES", (copied / "rust" / "SOURCES").read_text(encoding="utf-8")
    made.write_text("0" * 64 + "\n", encoding="utf-8")
    try:
        why = "this is no x86-64 Linux machine with SSE4.2"
        assert run(copied, uname="Linux aarch64", cargo="") == Ended(1, b"", f"leasecheck: {why}: {STALE}\n".encode())
    finally:
        made.write_text(text, encoding="utf-8")


@needs.program("cargo")
@pytest.mark.long
def test_cargo_builds_it(copied: Path) -> None:
    """Where dist/ doesn't fit, cargo's program takes its place, and is there for the second run."""
    for name in ("out", "stand_ins"):
        shutil.rmtree(copied / name, ignore_errors=True)
    (copied / "stand_ins").mkdir()
    (copied / "stand_ins" / "uname").write_text("#!/bin/sh\necho 'Linux aarch64'\n", encoding="ascii")
    (copied / "stand_ins" / "uname").chmod(0o755)
    env = {"PATH": f"{copied}/stand_ins:{os.environ['PATH']}", "HOME": os.environ["HOME"]}
    asked = [str(copied / "leasecheck"), "--version"]
    first, again = (subprocess.run(asked, env=env, capture_output=True, check=True) for _ in range(2))
    assert first.stderr.endswith(b": building the program from rust/\n") and not again.stderr
    assert first.stdout == again.stdout and first.stdout.startswith(b"leasecheck ")
