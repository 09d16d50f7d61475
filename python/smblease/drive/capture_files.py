"""The files that drive/capture is given: a capture, which may come on standard input, and session keys."""
from __future__ import annotations

import os
import re
import shutil
import sys
import tempfile
from collections.abc import Iterator
from contextlib import contextmanager
from typing import IO

from smblease.drive.faults import DriveFault
from smblease.drive.tshark import SessionKey

STANDARD_INPUT = "-"


def session_key(text: str) -> SessionKey | None:
    found = re.fullmatch("([0-9A-Fa-f]{16}):([0-9A-Fa-f]{32})", text)
    return SessionKey(*found.groups()) if found else None


def keys_in(path: str) -> list[SessionKey]:
    """The keys of a file, one on a line. Lines that are empty or begin with # are passed over."""
    try:
        with open(path, encoding="utf-8", errors="replace") as stream:
            lines = [line.strip() for line in stream]
    except OSError as fault:
        raise DriveFault(f"{path}: {fault.strerror}") from None
    return [_key(path, number, line) for number, line in enumerate(lines, 1) if line and not line.startswith("#")]


def _key(path: str, number: int, line: str) -> SessionKey:
    key = session_key(line)
    if not key:
        raise DriveFault(f"{path}: line {number} isn't ID:KEY, of 16 and 32 hexadecimal digits")
    return key


@contextmanager
def file_at(path: str) -> Iterator[str]:
    """The path of a file that can be read more than once: of what comes on standard input or through a pipe, a copy."""
    if path != STANDARD_INPUT and os.path.isfile(path):
        yield path
        return
    with tempfile.NamedTemporaryFile(prefix="capture-") as copy:
        _copy(path, copy.file)
        copy.flush()
        yield copy.name


def _copy(path: str, copy: IO[bytes]) -> None:
    if path == STANDARD_INPUT and sys.stdin is None:
        raise DriveFault("standard input is closed")
    try:
        if path == STANDARD_INPUT:
            shutil.copyfileobj(sys.stdin.buffer, copy)
        else:
            with open(path, "rb") as stream:
                shutil.copyfileobj(stream, copy)
    except OSError as fault:
        raise DriveFault(f"{path}: {fault.strerror}") from None
