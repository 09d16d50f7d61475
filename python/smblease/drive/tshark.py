"""Has tshark read a capture: a row for each packet that has to do with SMB2, in the order of the packets' times."""
from __future__ import annotations

import os
import subprocess
import tempfile
from collections.abc import Iterator, Sequence
from contextlib import contextmanager
from dataclasses import dataclass, replace
from decimal import Decimal
from typing import IO

from smblease.drive.called import where_from
from smblease.drive.faults import DriveFault
from smblease.drive.progress import Progress

_HERE = os.path.dirname(os.path.abspath(__file__))
# what reads SMB2 on ports that tshark doesn't know
ANY_PORT = os.path.join(_HERE, "smb2_tcp.lua")
ROWS = os.path.join(_HERE, "smb2_rows.lua")


@dataclass(frozen=True)
class SessionKey:
    """What tshark decrypts a session by: its SessionId, in the order of its bytes in a message, and its key, in digits."""

    session: str
    key: str


@dataclass(frozen=True)
class Source:
    """What tshark is to read, and how."""

    path: str
    ports: Sequence[int]
    keys: Sequence[SessionKey]


@dataclass(frozen=True)
class Rows:
    """What was read, up to where the file can be read."""

    lines: IO[str]
    # where the packets aren't in the order of their times: their numbers in the file, by their places in that order
    numbers: Sequence[int] | None
    # what tshark said of a file that it couldn't read to its end
    fault: str | None


class _Unordered(Exception):
    """The packets aren't in the order of their times."""


def read_rows(source: Source, progress: Progress) -> Rows:
    """tshark reads the file once. Where it finds that the packets aren't in the order of their times, it reads a copy in which
    they are: whether something of a connection is missing depends on their order too."""
    try:
        return _read(source, progress, stops=True)
    except _Unordered:
        numbers = _numbers_by_time(source.path)
    with tempfile.TemporaryDirectory() as folder:
        copy = os.path.join(folder, "ordered.pcapng")
        fault = _said(["reordercap", source.path, copy]).fault
        rows = _read(replace(source, path=copy), progress, stops=False)
        return replace(rows, numbers=numbers, fault=fault or rows.fault)


def _words(source: Source) -> list[str]:
    decoded = [word for port in source.ports for word in ("-d", f"tcp.port=={port},smb2_tcp")]
    keys = [word for it in source.keys for word in ("-o", f'uat:smb2_seskey_list:{it.session},{it.key},"",""')]
    scripts = ["-X", f"lua_script:{ANY_PORT}", "-X", f"lua_script:{ROWS}"]
    return ["tshark", "-q", "-n", "-r", source.path, *scripts, "-o", "tcp.reassemble_out_of_order:TRUE", *keys, *decoded]


def _read(source: Source, progress: Progress, stops: bool) -> Rows:
    """The rows of a file; it is to stop where packets aren't in order, or to go on."""
    lines = tempfile.TemporaryFile("w+", encoding="utf-8")  # pylint: disable=consider-using-with
    with tempfile.TemporaryFile("w+", errors="replace") as faults, _started(_words(source), faults) as process:
        for line in process.stdout or ():
            kind, _, rest = line.rstrip("\n").partition(" ")
            if kind == "packet":
                lines.write(f"{rest}\n")
            elif kind == "at":
                progress.says(f"{int(rest):,} packets read")
            elif kind == "unordered" and stops:
                lines.close()
                raise _Unordered
        status = process.wait()
        faults.seek(0)
        return Rows(lines, None, _fault("tshark", status, faults.read()))


@contextmanager
def _started(words: list[str], faults: IO[str]) -> Iterator[subprocess.Popen[str]]:
    """A program, which is ended where it isn't at its end."""
    try:
        process = subprocess.Popen(words, stdout=subprocess.PIPE, stderr=faults, text=True, errors="replace")
    except OSError as fault:
        raise _missing(words[0], fault) from None
    with process:
        try:
            yield process
        finally:
            process.kill()


def _missing(program: str, fault: OSError) -> DriveFault:
    return DriveFault(f"{program}: {fault.strerror} ({where_from('tshark')})")


def _fault(program: str, status: int, text: str) -> str | None:
    """What a program says where it couldn't read a file to its end."""
    said = [line for line in text.splitlines() if line.startswith(f"{program}: ")]
    if said:
        return said[0][len(program) + 2:]
    return f"{program} ended with status {status}" if status else None


@dataclass(frozen=True)
class _Said:
    out: str
    fault: str | None


def _said(words: list[str]) -> _Said:
    try:
        had = subprocess.run(words, capture_output=True, text=True, errors="replace", check=False)
    except OSError as fault:
        raise _missing(words[0], fault) from None
    return _Said(had.stdout, _fault(words[0], had.returncode, had.stderr))


def _numbers_by_time(path: str) -> list[int]:
    """The numbers of all packets, in the order of their times; of several at one time, in that of the file."""
    # (What is in packets needn't be looked at.)
    words = ["tshark", "-n", "-r", path, "--disable-protocol", "ip", "--disable-protocol", "ipv6"]
    times = [Decimal(it) for it in _said([*words, "-T", "fields", "-e", "frame.time_epoch"]).out.split()]
    return sorted(range(1, len(times) + 1), key=lambda number: times[number - 1])
