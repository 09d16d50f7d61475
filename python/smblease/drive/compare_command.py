"""drive/compare: where a record differs from the profile's, and which known departures explain it."""
from __future__ import annotations

import argparse
import difflib
from collections.abc import Sequence

from smblease.drive.arguments import runner_of, server_arguments
from smblease.drive.called import name_of, parser_of
from smblease.drive.commands import NOT_DRIVEN, SAFE, ended, rules_of, schedule_in
from smblease.drive.explanations import NONE, Run, likeness_of
from smblease.drive.faults import DriveFault, Usage
from smblease.program import replay
from smblease.schedules import Schedule

EPILOG = """Without --record the schedule is driven first. The lines of the difference begin with `- ` where the profile's server
has a fact that this one hasn't, and with `+ ` the other way round. After them comes what explains it: the departures
of smbd (docs/FOUND_ON_SMBD.md) with which a model server gives the whole record, fact by fact, and none of which can be
left out. Within a step messages on different connections are in the driver's order.

Exit status: 0 the record is the profile's, or explained; 1 it isn't explained, or wasn't to be had; 2 the command line
is refused."""


def parser() -> argparse.ArgumentParser:
    made = parser_of("drive/compare", "Compares a driven record with the profile's.", EPILOG)
    made.add_argument("schedule", metavar="SCHEDULE", help="a file with a schedule, - for standard input")
    made.add_argument("--record", metavar="FILE", help=f"its record, as {name_of('drive/run')} wrote it")
    server_arguments(made)
    return made


def _facts(arguments: argparse.Namespace, schedule: Schedule) -> tuple[Run, list[str], Sequence[int]]:
    """A run, its facts, and how many there were after each event, where it was driven now."""
    if not arguments.record:
        runner = runner_of(arguments)
        outcome = runner.run(schedule)
        run = Run.waited(schedule, outcome.steps) if runner.stays else Run(schedule)
        return run, outcome.record.facts(), outcome.counts
    of_a_run = (arguments.server, arguments.share, arguments.user, arguments.authentication_file, arguments.break_time,
                arguments.smbd_log, arguments.dialect)
    if arguments.smbd or arguments.served or arguments.encrypt or any(it is not None for it in of_a_run):
        raise Usage("--record is of a run that was driven already")
    try:
        with open(arguments.record, encoding="utf-8", errors="replace") as stream:
            return Run(schedule), [it for it in stream.read().splitlines() if it and not it.startswith("#")], ()
    except OSError as fault:
        raise DriveFault(f"{arguments.record}: {fault.strerror}") from None


def _compare(arguments: argparse.Namespace) -> int:
    schedule = schedule_in(arguments.schedule, arguments.leasecheck)
    run, facts, counts = _facts(arguments, schedule)
    likeness = likeness_of(arguments.leasecheck, run, facts, counts, rules_of(arguments.rules))
    if likeness.departures == NONE:
        print("same")
        return SAFE
    profile = replay(arguments.leasecheck, run.replayed.text, rules=rules_of(arguments.rules))
    for line in difflib.ndiff(profile, facts):
        if line[:2] in ("- ", "+ "):
            print(line)
    if likeness.departures is None:
        print("not explained")
        return NOT_DRIVEN
    for departure in sorted(likeness.departures, key=lambda it: it.name):
        print(f"explained by {departure.name.lower()}: {departure.value}")
    return SAFE


def main(words: Sequence[str] | None = None) -> int:
    return ended(parser(), _compare, words)
