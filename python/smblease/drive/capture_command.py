"""drive/capture: the verdict on a capture, as `leasecheck capture` gives it, and the record of it."""
from __future__ import annotations

import argparse
import subprocess
import sys
import tempfile
from collections import Counter
from collections.abc import Iterable, Iterator, Sequence
from dataclasses import replace

from smblease.drive.called import parser_of
from smblease.drive.capture_connections import LeftOut, Overview, overview_of
from smblease.drive.capture_files import file_at, keys_in, session_key
from smblease.drive.capture_findings import Verdict, findings_in, parted
from smblease.drive.capture_json import json_of
from smblease.drive.capture_lines import lines_of
from smblease.drive.commands import NOT_DRIVEN, SAFE, ended, write
from smblease.drive.faults import DriveFault, Usage
from smblease.drive.packets import Capture, read_capture
from smblease.drive.progress import Progress
from smblease.drive.tshark import SessionKey
from smblease.faults import ToolFault
from smblease.program import find_program

EPILOG = """tshark reads the capture, and leasecheck capture judges it: the verdict is printed, safe, judged in part, unsafe or
nothing judged, then what is found of each file on which leases were granted, who isn't judged and why, and how much there was
(docs/FORMATS.md, "Captures"); then what was left out, and why. With --record the record goes to a file, which leasecheck
judge and draw read: of the files that are unsafe, or else of those that are safe, what each client cached, with its packet
in a comment line.

Exit status: 0 each file and each client is judged, and no file is unsafe; 1 the capture can't be read, or there is no SMB2 in
it; 2 the command line is refused; 3 a file is unsafe: the first rule is broken in every order that fits the capture, by what
clients cached or by what the server granted; 4 of no file anything is decided; 5 no file is unsafe, and something isn't
judged."""


def key_given(text: str) -> SessionKey:
    key = session_key(text)
    if not key:
        raise argparse.ArgumentTypeError(f"{text!r} isn't ID:KEY, of 16 and 32 hexadecimal digits")
    return key


def parser() -> argparse.ArgumentParser:
    made = parser_of("drive/capture", "Judges what a capture of SMB2 shows of leases.", EPILOG)
    made.add_argument("capture", metavar="FILE", help="a capture that tshark reads, as pcapng; - for standard input")
    made.add_argument("--record", metavar="OUT", help="write the record there")
    shown = made.add_mutually_exclusive_group()
    shown.add_argument("--lines", action="store_true", help="print the lines that leasecheck capture reads, and nothing else")
    shown.add_argument("--json", action="store_true", help="print one JSON object")
    made.add_argument("--at", choices=("client", "server"), default="server",
                      help="where it was made; at a server, which is presumed, it only bounds when clients took messages")
    made.add_argument("--port", metavar="PORT", type=int, action="append", default=[],
                      help="a port on which SMB2 isn't found without that; may be given more than once")
    made.add_argument("--ignore-case", action="store_true",
                      help="names that differ in case alone are one, as servers mostly have it; they are told in upper case")
    made.add_argument("--session-key", metavar="ID:KEY", type=key_given, action="append", default=[],
                      help="decrypt this session: its SessionId, in the order of its bytes in a message, and its session key, in "
                           "16 and 32 hexadecimal digits; may be given more than once")
    made.add_argument("--keys", metavar="FILE", help="a file of such keys, one on a line")
    made.add_argument("--leasecheck", metavar="PATH", default=find_program(), help="the program leasecheck")
    return made


def said_by(program: str, words: Sequence[str], lines: Iterable[str]) -> str:
    """What `leasecheck capture` says of a capture."""
    with tempfile.TemporaryFile("w+", encoding="utf-8") as given:
        given.writelines(f"{line}\n" for line in lines)
        given.seek(0)
        try:
            had = subprocess.run([program, "capture", *words, "-"], stdin=given, capture_output=True, encoding="utf-8",
                                 check=False)
        except OSError as fault:
            raise ToolFault(f"{program}: {fault.strerror}") from None
    if had.returncode not in {it.status for it in Verdict}:
        raise DriveFault(had.stderr.strip() or f"{program} ended with status {had.returncode}")
    return had.stdout


def _left_out(left_out: Counter[LeftOut]) -> Iterator[str]:
    return (f"left out: {reason.told(left_out[reason])}" for reason in LeftOut if left_out[reason])


def _remarks(capture: Capture, overview: Overview) -> Iterator[str]:
    """What is to be said of how the capture was read."""
    if not capture.is_ordered:
        yield "the packets aren't in the order of their times in the capture: they were put in that order"
    if capture.fault:
        yield f"the capture is read up to packet {overview.last_packet} only: {capture.fault}"


def _read(arguments: argparse.Namespace, path: str, progress: Progress) -> Capture:
    keys = [*arguments.session_key, *(keys_in(arguments.keys) if arguments.keys else [])]
    capture = read_capture(path, arguments.port, keys, progress)
    return replace(capture, fault=capture.fault and capture.fault.replace(path, arguments.capture))


def _judge(arguments: argparse.Namespace) -> int:
    if any(not 0 < port < 65536 for port in arguments.port):
        raise Usage("--port is a number from 1 to 65535")
    progress = Progress(sys.stderr)
    try:
        with file_at(arguments.capture) as path:
            capture = _read(arguments, path, progress)
        overview = overview_of(capture.packets())
        if not overview.connections:
            raise DriveFault(f"{arguments.capture}: {capture.fault or 'no SMB2 is in it'}")
        return _tell(arguments, capture, overview, progress)
    finally:
        progress.ends()


def _tell(arguments: argparse.Namespace, capture: Capture, overview: Overview, progress: Progress) -> int:
    lines = lines_of(capture, overview, arguments.ignore_case)
    if arguments.lines:
        progress.ends()
        sys.stdout.writelines(f"{line}\n" for line in lines)
        return NOT_DRIVEN if capture.fault else SAFE
    words = ["--at", arguments.at, *(["--record"] if arguments.record else [])]
    record, told = parted(said_by(arguments.leasecheck, words, lines), bool(arguments.record))
    findings = findings_in(told)
    left_out = overview.left_out_of(findings.counts.unread)
    verdict = findings.verdict(not capture.fault and not any(left_out.values()))
    remarks = list(_remarks(capture, overview))
    found = [verdict.word, *findings.lines(), *_left_out(left_out), *remarks]
    if arguments.record:
        write(arguments.record, "".join(f"{line}\n" for line in (*record, *(f"# {line}" for line in found))).encode())
    progress.ends()
    # In one piece, so that a reader may go after the first line.
    text = "".join(f"{line}\n" for line in found)
    sys.stdout.write(json_of(verdict, findings, left_out, remarks) if arguments.json else text)
    return verdict.status


def main(words: Sequence[str] | None = None) -> int:
    return ended(parser(), _judge, words)
