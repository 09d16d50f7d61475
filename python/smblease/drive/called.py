"""By which name a command was called, which is what it calls itself: `drive/run` in a clone, `smblease-run` where it is
installed; and what it says of a package or a program that isn't there."""
from __future__ import annotations

import argparse
import importlib.util
import os
import sys
from typing import Any

from smblease._commit import commit
from smblease._library import TOP
from smblease.drive.faults import DriveFault
from smblease.version import VERSION

INSTALLED = {
    "drive/run": "smblease-run", "drive/explore": "smblease-explore", "drive/compare": "smblease-compare",
    "drive/capture": "smblease-capture", "serve/run": "smblease-serve", "serve/torture": "smblease-torture",
}
# What a package of Python is an extra of (pyproject.toml).
EXTRAS = {"impacket": "servers", "cryptography": "servers"}


def is_of_a_clone() -> bool:
    """Whether what was called is a file of the repository. What an editable install makes isn't."""
    return os.path.exists(os.path.join(TOP, "crates.txt")) and os.path.basename(sys.argv[0]) not in INSTALLED.values()


def name_of(command: str) -> str:
    """What a command is called here that is `drive/run` in a clone."""
    return command if is_of_a_clone() else INSTALLED[command]


class _Version(argparse.Action):
    """Prints the version, and the commit where it is known, which only this asks for."""

    def __call__(self, parser: argparse.ArgumentParser, *_: Any) -> None:
        found = commit()
        lines = [f"{parser.prog} {VERSION}", *([f"commit {found}"] if found else [])]
        print("\n".join(lines))
        parser.exit()


def parser_of(command: str, about: str, epilog: str) -> argparse.ArgumentParser:
    made = argparse.ArgumentParser(prog=name_of(command), description=about, epilog=epilog,
                                   formatter_class=argparse.RawDescriptionHelpFormatter)
    made.add_argument("--version", action=_Version, nargs=0, default=argparse.SUPPRESS,
                      help="show program's version number and exit")
    return made


def where_from(debian: str) -> str:
    """How a program is had that is in this package of Debian."""
    return "tools/setup installs it" if is_of_a_clone() else f"Debian's package {debian} has it"


def need(package: str, user: str = "") -> None:
    """A package of Python that isn't there is a fault, which says how it is had; `user` needs it alone."""
    if importlib.util.find_spec(package) is None:
        remedy = "tools/setup installs it" if is_of_a_clone() else f"pip install 'smblease[{EXTRAS[package]}]'"
        raise DriveFault(f"{package} is missing{user and f', which {user} needs'}: {remedy}")
