"""serve/torture: tests of smbtorture, each against a server of its own."""
from __future__ import annotations

import argparse
import re
import subprocess
import time
from collections.abc import Callable, Sequence
from concurrent.futures import ThreadPoolExecutor
from contextlib import closing

from smblease.drive.called import name_of, need, parser_of, where_from
from smblease.drive.clock import library
from smblease.drive.commands import NOT_DRIVEN, SAFE, ended
from smblease.drive.faults import DriveFault, Usage
from smblease.drive.servers import PrivateServer
from smblease.program import find_program
from smblease.serve.dialects import DEFAULT, dialect_of, smbd_name
from smblease.serve.run_command import RULES
from smblease.serve.server_process import ServerProcess
from smblease.serve.torture_suites import Kind, Row, read_rows, table

# A session is ended by another one of its user alone, which no guest is.
USER, PASSWORD = "torture", "torture"
SUITES = ("smb2.lease", "smb2.durable-open", "smb2.durable-open-disconnect")
EPILOG = """Each test is a line: its name, `passed`, `failed` or `skipped`, its seconds, and smbtorture's own words, if any. After
--all comes a table, a row for each suite.

Exit status: 0 none failed; 1 some did, or couldn't be run; 2 the command line is refused."""


def parser() -> argparse.ArgumentParser:
    served = name_of("serve/run")
    made = parser_of("serve/torture", f"Runs tests of smbtorture against the server of {served}.", EPILOG)
    made.add_argument("name", metavar="NAME", nargs="*",
                      help=f"a test, as smb2.lease.request, or a suite, as smb2.session ({', '.join(SUITES)})")
    made.add_argument("--all", action="store_true",
                      help="all tests of SMB 2, against this server and then a private smbd, or with --smbd against that alone")
    made.add_argument("--beside", metavar="FILE", help="with --all: what --all --smbd printed, in place of running smbd's again")
    made.add_argument("--kept", metavar="FILE", help="with --all: what an earlier run printed; those tests aren't run again")
    made.add_argument("--no-guests", action="store_true", help="with its user alone, so that all is signed")
    made.add_argument("--smbd", action="store_true", help="against a private smbd, for comparison; needs root")
    made.add_argument("--rules", default=RULES, metavar="RULES", help=f"with {served} --rules RULES ({RULES})")
    made.add_argument("--max", default=DEFAULT, metavar="DIALECT", help=f"the dialect, which is served up to ({DEFAULT})")
    made.add_argument("--limit", type=float, default=150.0, metavar="S", help="seconds that a test may take (150)")
    made.add_argument("--jobs", type=int, default=2, metavar="N", help="how many at a time (2)")
    made.add_argument("--record", metavar="PREFIX", help="keep the records as PREFIX followed by the test's name")
    made.add_argument("--leasecheck", metavar="PATH", default=find_program(), help="the program leasecheck")
    return made


def known_tests() -> list[str]:
    """All that smbtorture lists: with the last name twice, which may have blanks."""
    return [it.rpartition(".")[0] for it in _ran(["smbtorture", "--list"], 60.0).stdout.splitlines() if it.startswith("smb2.")]


def chosen_tests(names: Sequence[str]) -> list[str]:
    """Tests, and those of suites."""
    known = known_tests()
    found: list[str] = []
    for name in names:
        tests = [it for it in known if name in (it, it.rpartition(".")[0])]
        if not tests:
            raise Usage(f"smbtorture has no test and no suite of this name: {name}")
        found += tests
    return found


def _ran(words: list[str], limit: float) -> subprocess.CompletedProcess[str]:
    try:
        return subprocess.run(words, stdin=subprocess.DEVNULL, capture_output=True, text=True, errors="replace", timeout=limit,
                              check=False)
    except OSError as fault:
        raise DriveFault(f"smbtorture: {fault.strerror} ({where_from('samba-testsuite')})") from None


def run_test(name: str, server: Callable[[str], ServerProcess | PrivateServer], limit: float, dialect: str = DEFAULT) -> Row:
    begun = time.monotonic()
    with closing(server(name)) as target:
        place = target.place
        words = ["smbtorture", f"//{place.host}/{place.share}", "-p", str(place.port), "-U", f"{place.user}%{place.password}",
                 "-m", smbd_name(dialect_of("--max", dialect)), name]
        try:
            output = _ran(words, limit)
            kind, why = _outcome(output.stdout + output.stderr, output.returncode)
        except subprocess.TimeoutExpired:
            kind, why = Kind.FAILED, f"not over within {limit:.0f} s"
    complaints = target.complaints.strip() if isinstance(target, ServerProcess) else ""
    return Row(name, kind, time.monotonic() - begun, f"{why} {complaints}".strip())


def _outcome(output: str, status: int) -> tuple[Kind, str]:
    found = re.search(r"^(success|skip|failure|error): [^\[\n]+?(?: \[\n(.*?)\n\])?$", output, re.MULTILINE | re.DOTALL)
    words = " ".join((found.group(2) or "").split()) if found else _last_status(output)
    if found and found.group(1) == "success" and status == 0:
        return Kind.PASSED, ""
    return (Kind.SKIPPED if found and found.group(1) == "skip" else Kind.FAILED), words


def _last_status(output: str) -> str:
    """The last line with a status, where smbtorture breaks down without a word of its own."""
    lines = [line for line in output.splitlines() if "NT_STATUS_" in line]
    return " ".join((lines or output.splitlines() or ["nothing"])[-1].split())


def run_tests(tests: Sequence[str], server: Callable[[str], ServerProcess | PrivateServer],
              arguments: argparse.Namespace) -> list[Row]:
    """Prints each row as soon as those before it are there."""
    rows: list[Row] = []
    with ThreadPoolExecutor(arguments.jobs) as pool:
        try:
            for row in pool.map(lambda name: run_test(name, server, arguments.limit, arguments.max), tests):
                rows.append(row)
                print(row.text, flush=True)
        except BaseException:
            pool.shutdown(cancel_futures=True)
            raise
    counts = [sum(row.kind is kind for row in rows) for kind in Kind]
    print(", ".join(f"{count} {kind.value}" for count, kind in zip(counts, Kind)), flush=True)
    return rows


def run_on_smbd(tests: Sequence[str], arguments: argparse.Namespace) -> list[Row]:
    # The proved server is tested without that package.
    need("impacket", "--smbd")
    # Compiled once, before servers are made side by side.
    library()
    protocol = smbd_name(dialect_of("--max", arguments.max))
    return run_tests(tests, lambda _: PrivateServer(protocol=protocol), arguments)


def run_on_served(tests: Sequence[str], arguments: argparse.Namespace) -> list[Row]:
    def server(name: str) -> ServerProcess:
        record = f"{arguments.record}{name}" if arguments.record else None
        words = ["--rules", arguments.rules, "--user", f"{USER}%{PASSWORD}", *([] if arguments.no_guests else ["--guests"]),
                 "--max", arguments.max]
        return ServerProcess(arguments.leasecheck, record, words, USER, PASSWORD)
    return run_tests(tests, server, arguments)


def torture(arguments: argparse.Namespace) -> int:
    dialect_of("--max", arguments.max)
    if arguments.jobs < 1:
        raise Usage("--jobs is at least 1")
    if arguments.all and arguments.name:
        raise Usage("--all goes without names")
    if arguments.kept and not arguments.all:
        raise Usage("--kept goes with --all")
    if arguments.beside and (arguments.smbd or not arguments.all):
        raise Usage("--beside goes with --all, and without --smbd")
    beside = read_rows(arguments.beside) if arguments.beside else None
    tests = known_tests() if arguments.all else chosen_tests(arguments.name or SUITES)
    kept = {row.name: row for row in read_rows(arguments.kept)} if arguments.kept else {}
    run = run_on_smbd if arguments.smbd else run_on_served
    rows = [*kept.values(), *run([it for it in tests if it not in kept], arguments)]
    if arguments.all and arguments.smbd:
        print(table([("smbd", rows)]))
    elif arguments.all:
        print(table([("serve/run", rows), ("smbd", run_on_smbd(tests, arguments) if beside is None else beside)]))
    return NOT_DRIVEN if any(row.kind is Kind.FAILED for row in rows) else SAFE


def main(words: Sequence[str] | None = None) -> int:
    return ended(parser(), torture, words)
