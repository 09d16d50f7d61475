"""drive/explore: random schedules on a real server; what is charged is kept and shrunk."""
from __future__ import annotations

import argparse
import logging
import os
import re
import signal
import sys
import time
from collections.abc import Sequence
from contextlib import closing
from dataclasses import dataclass, replace
from pathlib import Path

from smblease.drive.arguments import EXPIRING, options_text, runner_of, server_arguments, server_text
from smblease.drive.build_server import junit
from smblease.drive.called import parser_of
from smblease.drive.commands import INTERRUPTED, NOT_DRIVEN, NOTHING_TRIED, SAFE, UNSAFE, ended, write
from smblease.drive.explanations import UNEXPLAINED
from smblease.drive.exploration import Explorer
from smblease.drive.explored import Head, Row, Table, tried_by
from smblease.drive.faults import DriveFault, Usage
from smblease.drive.kept_servers import KeptServers
from smblease.drive.model import Departure
from smblease.drive.pictures import version_of
from smblease.drive.report import Report
from smblease.drive.servers import FITTED, SMBD
from smblease.drive.signals import Noted
from smblease.drive.slots import Slots
from smblease.drive.workers import rows_of

# From so many unexplained records on, and so large a share of them, the server is another one than the departures are of.
FEW, SHARE = 3, 0.5
EPILOG = """FOLDER/table begins with how it was made, and --resume goes on with it only where that is the same. It gets a line for
each schedule: its number; what --seed draws it by alone; `blind` (its events were chosen beforehand), `guided` (each by
what the run had come to), `aimed` (guided towards a write during a break to reads) or what its scene aims at; its
events, and how many of them did something; what it tried, by six numbers: creates that asked for a lease, that were
granted one, and that were refused for their key, breaks, acknowledgments, and reads from a cache; the verdict, which is
`nothing tried` where no lease was granted; `same` where the record is the profile's, else the known departures that
explain it, or `unexplained` (docs/FOUND_ON_SMBD.md); and for an unsafe one `shrunk N`, the events that are left, or
`allowed`: it is safe on a model server without the departures of --allow, and doesn't count. With --expect the verdict
is `unexpected PLACE` where a record isn't that of a server of these rules.

A schedule that is unsafe, unexpected or unexplained is kept next to the table by its number, with its record, what isn't
expected, and what is left of it. It counts as unsafe, and is shrunk, where it breaks one rule in both orders of
messages; where the rules differ the table says `unsure` and both verdicts. One seed gives one table, as far as the
server does the same again.

With --shard 2/8 only the schedules 2, 10, 18 and so on are driven; the tables of all eight have together what one of
the whole has, and each has a folder of its own. --junit FILE has a test for each schedule of the table.

Exit status, by all of the table: 0 all records are safe, or unsafe by what is allowed; 1 a schedule couldn't be
driven; 2 the command line is refused; 3 a record is unsafe, or not as expected; 4 no schedule was granted a lease;
130 it was interrupted, and the table has what was driven until then."""


def parser() -> argparse.ArgumentParser:
    made = parser_of("drive/explore", "Drives a server through random schedules.", EPILOG)
    made.add_argument("--seed", required=True, metavar="S", help="what the schedules are drawn from; or S:N, one of them alone")
    made.add_argument("--count", type=int, metavar="N", help="how many")
    made.add_argument("--folder", metavar="FOLDER", help="where the table and what is unsafe go (explored-S)")
    made.add_argument("--resume", action="store_true", help="go on with what the table doesn't have yet")
    made.add_argument("--jobs", type=int, default=1, metavar="N", help="drive so many at a time (1)")
    made.add_argument("--allow", metavar="DEPARTURE", nargs="+", default=[], choices=[it.name.lower() for it in Departure],
                      help="what is unsafe by these known departures alone doesn't count (docs/FOUND_ON_SMBD.md)")
    made.add_argument("--shard", metavar="I/N", help="of the schedules only each N-th, from the I-th on")
    made.add_argument("--junit", metavar="FILE", help="write there what became of them, for a build server")
    made.add_argument("--report", metavar="FILE", help="write a page there (HTML), with pictures of what is charged")
    made.add_argument("--json", metavar="FILE", help="write the same there for programs")
    made.add_argument("--keep", choices=["charged", "all"], default="charged",
                      help="which schedules are kept with their records: those that are charged or not explained, or all")
    made.add_argument("--no-shrink", action="store_true", help="keep what is unsafe as it is")
    server_arguments(made)
    return made


@dataclass(frozen=True)
class Plan:
    """Which schedules are driven."""

    seed: int
    numbers: Sequence[int]
    # what the folder is called that nobody names
    name: str


def plan_of(arguments: argparse.Namespace) -> Plan:
    found = re.fullmatch(r"(-?\d+)(?::(\d+))?", arguments.seed, re.ASCII)
    if found is None:
        raise Usage("--seed is a number S, or S:N")
    seed = int(found.group(1))
    if found.group(2):
        if arguments.count is not None or arguments.shard is not None:
            raise Usage("--seed S:N is one schedule: --count and --shard are of many")
        return Plan(seed, (int(found.group(2)),), f"explored-{seed}-{found.group(2)}")
    if arguments.count is None or arguments.count < 1:
        raise Usage("--count is at least 1")
    return _shard(Plan(seed, range(1, arguments.count + 1), f"explored-{seed}"), arguments.shard)


def _shard(plan: Plan, text: str | None) -> Plan:
    """Every so many-th schedule, from this one on."""
    if text is None:
        return plan
    found = re.fullmatch(r"(\d+)/(\d+)", text, re.ASCII)
    number, count = map(int, found.groups()) if found else (0, 0)
    if not 1 <= number <= count:
        raise Usage("--shard is I/N, where I is from 1 to N")
    name = f"{plan.name}-{number}-of-{count}" if count > 1 else plan.name
    return replace(plan, numbers=plan.numbers[number - 1::count], name=name)


class Progress:
    """A line on standard error that is written over, where that is a terminal."""

    def __init__(self, count: int) -> None:
        self._count = count
        self._start = time.monotonic()
        self._shows = sys.stderr.isatty()

    def show(self, rows: Sequence[Row], driven: int) -> None:
        if self._shows:
            rate = 60 * driven / (time.monotonic() - self._start)
            charged, faults = sum(it.is_charged for it in rows), sum(it.is_fault for it in rows)
            sys.stderr.write(f"\r{driven} of {self._count}, {charged} charged, {faults} not driven, {rate:.0f} a minute\x1b[K")
            sys.stderr.flush()

    def end(self) -> None:
        if self._shows:
            sys.stderr.write("\n")


def summary(rows: Sequence[Row], driven: int, folder: str, arguments: argparse.Namespace) -> list[str]:
    """What is printed of all rows, of which so many were driven now."""
    counts = {"unsafe": sum(it.is_unsafe for it in rows), "unexpected": sum(it.is_unexpected for it in rows),
              "allowed": sum(it.is_allowed for it in rows), "tried nothing": sum(it.tried_nothing for it in rows),
              "not driven to the end": sum(it.is_fault for it in rows)}
    always = {"unsafe", "not driven to the end"} | ({"unexpected"} if arguments.expect else set())
    before = f" after {len(rows) - driven}" if len(rows) > driven else ""
    said = ", ".join(f"{count} {what}" for what, count in counts.items() if count or what in always)
    return [tried_by(rows), *another_server(rows, arguments), f"{driven} driven{before}, {said}; {folder}/table has them"]


def another_server(rows: Sequence[Row], arguments: argparse.Namespace) -> list[str]:
    """Word that the known departures, by which records are explained, are those of another server or set-up than this one."""
    if arguments.expect is not None or arguments.served:
        return []
    driven = [it for it in rows if not it.is_fault and not it.tried_nothing]
    unexplained = sum(it.likeness == UNEXPLAINED for it in driven)
    if unexplained < FEW or unexplained < SHARE * len(driven):
        return []
    return [f"{unexplained} of {len(driven)} records are unexplained: the known departures are those of {FITTED}, and this is "
            "another server, or one that is set up otherwise"]


def status_of(rows: Sequence[Row]) -> int:
    if any(it.is_charged for it in rows):
        return UNSAFE
    if any(it.is_fault for it in rows):
        return NOT_DRIVEN
    return NOTHING_TRIED if all(it.tried_nothing for it in rows) else SAFE


def explorer_of(arguments: argparse.Namespace, plan: Plan, folder: str) -> Explorer:
    slots = Slots(arguments.jobs)
    runner = replace(runner_of(arguments, slots), slots=slots)
    if not arguments.server and not arguments.smbd_log:
        runner = replace(runner, server=KeptServers(runner.server))
    allowed = frozenset(Departure[it.upper()] for it in arguments.allow)
    return Explorer(runner, plan.seed, folder, not arguments.no_shrink, allowed, arguments.keep == "all")


def _explore(arguments: argparse.Namespace) -> int:
    if arguments.jobs < 1:
        raise Usage("--jobs is at least 1")
    if arguments.jobs > 1 and arguments.smbd_log:
        raise Usage("--smbd-log is of one smbd, and --jobs has several")
    plan = plan_of(arguments)
    folder = arguments.folder or plan.name
    explorer = explorer_of(arguments, plan, folder)
    explorer.check()
    logging.getLogger("smblease.drive.shrinking").setLevel(logging.INFO)
    try:
        os.makedirs(folder, exist_ok=True)
        with closing(Table(f"{folder}/table", head_of(arguments, plan), arguments.resume)) as table:
            driven, is_whole = _drive(explorer, table, plan, arguments)
    except OSError as fault:
        raise DriveFault(f"{folder}: {fault.strerror}") from None
    _write_reports(arguments, Report(table.head, versions_of(arguments), table.rows, Path(folder), arguments.leasecheck))
    print("\n".join(summary(table.rows, driven, folder, arguments)))
    if not is_whole:
        print(f"interrupted; the same words with --resume go on after these {len(table.rows)} of {len(plan.numbers)}")
    return status_of(table.rows) if is_whole else INTERRUPTED


def _write_reports(arguments: argparse.Namespace, report: Report) -> None:
    if arguments.junit:
        write(arguments.junit, junit(report.rows, report.head.seed))
    if arguments.report:
        write(arguments.report, report.html())
    if arguments.json:
        write(arguments.json, report.json())


def versions_of(arguments: argparse.Namespace) -> dict[str, str]:
    """Of the program, and of a server whose program is here."""
    program = version_of(arguments.leasecheck)
    return {"Program": program, "Server": version_of(SMBD)} if arguments.smbd else {"Program": program}


def head_of(arguments: argparse.Namespace, plan: Plan) -> Head:
    return Head(plan.seed, server_text(arguments), options_text(arguments))


def _drive(explorer: Explorer, table: Table, plan: Plan, arguments: argparse.Namespace) -> tuple[int, bool]:
    """Drives what the table doesn't have, and adds the rows; how many those are, and whether nobody interrupted it. Runs that
    wait for a timer aren't counted among --jobs."""
    numbers = sorted(set(plan.numbers) - {it.number for it in table.rows})
    progress, driven, is_whole = Progress(len(numbers)), 0, True
    workers = arguments.jobs * (EXPIRING if arguments.server and arguments.jobs > 1 else 1)
    try:
        with Noted(signal.SIGINT) as interruption, closing(rows_of(explorer, numbers, workers)) as rows:
            for row in rows:
                if interruption.came:
                    raise KeyboardInterrupt
                table.add(row)
                driven += 1
                progress.show(table.rows, driven)
    except KeyboardInterrupt:
        is_whole = False
    progress.end()
    return driven, is_whole


def main(words: Sequence[str] | None = None) -> int:
    return ended(parser(), _explore, words)
