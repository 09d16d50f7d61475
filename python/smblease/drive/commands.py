"""What the commands of drive/ and serve/ have in common: how they end, and the files that they read and write."""
from __future__ import annotations

import argparse
import logging
import os
import signal
import sys
from collections.abc import Callable, Sequence
from pathlib import Path

from smblease.drive.faults import DriveFault, Usage
from smblease.faults import ToolFault
from smblease.program import replay
from smblease.schedules import Schedule
from smblease.values import Rules

SAFE, NOT_DRIVEN, REFUSED, UNSAFE, NOTHING_JUDGED = range(5)
NOTHING_TRIED = NOTHING_JUDGED
# As a shell has it of a command that SIGINT ended.
INTERRUPTED = 130


def ended(parser: argparse.ArgumentParser, main: Callable[[argparse.Namespace], int], words: Sequence[str] | None) -> int:
    """Runs a command; what goes wrong is one line on standard error, and a status."""
    if sys.stdout is None:
        print(f"{parser.prog}: output: standard output is closed", file=sys.stderr)
        return NOT_DRIVEN
    try:
        arguments = _parsed(parser, words)
        is_verbose = getattr(arguments, "verbose", False)
        logging.basicConfig(format="%(message)s", level=logging.DEBUG if is_verbose else logging.WARNING)
        # A private server is ended too where the tool is.
        signal.signal(signal.SIGTERM, lambda number, frame: sys.exit(NOT_DRIVEN))
        status = main(arguments)
        sys.stdout.flush()
        return status
    except Usage as fault:
        print(f"{parser.prog}: {fault}", file=sys.stderr)
        return REFUSED
    except ToolFault as fault:
        print(f"{parser.prog}: {fault}", file=sys.stderr)
        return NOT_DRIVEN
    except ImportError as fault:
        # (of a package that is there in part)
        print(f"{parser.prog}: {fault}", file=sys.stderr)
        return NOT_DRIVEN
    except OSError as fault:
        # Standard output doesn't take it; nor shall the interpreter try again at its end.
        os.dup2(os.open(os.devnull, os.O_WRONLY), sys.stdout.fileno())
        print(f"{parser.prog}: output: {fault.strerror}", file=sys.stderr)
        return NOT_DRIVEN
    except KeyboardInterrupt:
        print(f"{parser.prog}: interrupted", file=sys.stderr)
        return INTERRUPTED


def _parsed(parser: argparse.ArgumentParser, words: Sequence[str] | None) -> argparse.Namespace:
    try:
        return parser.parse_args(words)
    finally:
        # (help that can't be written is found out here, and not at the interpreter's end)
        sys.stdout.flush()


def rules_of(text: str, word: str = "--rules") -> Rules:
    """The rules that a word of the command line names; `profile` is another word for those of docs/PROFILE.md."""
    try:
        return Rules() if text == "profile" else Rules.of(text)
    except ValueError as fault:
        raise Usage(f"{word}: {fault}") from None


def schedule_in(path: str, program: str) -> Schedule:
    """The schedule of a file, which `leasecheck replay` has to take."""
    try:
        if path == "-":
            text = sys.stdin.read()
        else:
            with open(path, encoding="utf-8", errors="replace") as stream:
                text = stream.read()
    except OSError as fault:
        raise DriveFault(f"{path}: {fault.strerror}") from None
    replay(program, text)
    return Schedule.read(text)


def write(path: str, data: bytes) -> None:
    try:
        Path(path).write_bytes(data)
    except OSError as fault:
        raise DriveFault(f"{path}: {fault.strerror}") from None
