"""The command line of tools/plain_rust."""

from __future__ import annotations

import argparse
import filecmp
import subprocess
import sys
import tempfile
from pathlib import Path
from typing import Iterator, Sequence

from plain_rust.faults import NotKnown
from plain_rust.workspace import DIGEST, made_folders, roots, write

REPOSITORY = Path(__file__).resolve().parent.parent
WORKSPACE = REPOSITORY / "rust"
ABOUT = "Writes the proved crates as plain Rust into rust/: contracts, ghost items and laws are taken off."


def made_files(folder: Path) -> set[Path]:
    """The files below a workspace's folder that are made, or stand where all files are."""
    below = {file.relative_to(folder) for made in made_folders() for file in (folder / made).rglob("*") if file.is_file()}
    return below | {file for file in (DIGEST, *roots()) if (folder / file).is_file()}


def differences(one: Path, other: Path) -> Iterator[Path]:
    """The made files that aren't the same below both folders."""
    for file in sorted(made_files(one) | made_files(other)):
        if not ((one / file).is_file() and (other / file).is_file() and filecmp.cmp(one / file, other / file, shallow=False)):
            yield file


def check() -> int:
    """Makes all files anew elsewhere and compares them; returns the status."""
    with tempfile.TemporaryDirectory() as folder:
        count = write(REPOSITORY, Path(folder))
        differing = list(differences(WORKSPACE, Path(folder)))
    for file in differing:
        print(f"rust/{file} isn't what tools/plain_rust makes: run make rust", file=sys.stderr)
    print(f"{count - len(differing)} passed, {len(differing)} failed")
    return 1 if differing else 0


def main(words: Sequence[str] | None = None) -> int:
    """Runs the command; returns its status."""
    parser = argparse.ArgumentParser(prog="tools/plain_rust", description=ABOUT)
    parser.add_argument("--check", action="store_true", help="make the files elsewhere, and compare them with those in rust/")
    given = parser.parse_args(words)
    try:
        if given.check:
            return check()
        print(f"{write(REPOSITORY, WORKSPACE)} files")
        return 0
    except (NotKnown, ValueError) as fault:
        print(f"tools/plain_rust: {fault}", file=sys.stderr)
    except (OSError, subprocess.CalledProcessError) as fault:
        print(f"tools/plain_rust: rustfmt or a file: {fault}", file=sys.stderr)
    return 1
