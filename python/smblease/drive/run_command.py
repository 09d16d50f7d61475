"""drive/run: one schedule on a real server."""
from __future__ import annotations

import argparse
import sys
from collections.abc import Sequence

from smblease.drive.arguments import runner_of, server_arguments
from smblease.drive.called import parser_of
from smblease.drive.commands import NOT_DRIVEN, NOTHING_TRIED, SAFE, UNSAFE, ended, schedule_in, write
from smblease.drive.runner import Outcome

EPILOG = """The record is printed, and the verdict as its last line, so that all of it is still a record: `# safe`;
`# unsafe PLACE RULE`; `# unsure: ..` where it depends on the order of messages within a step, which isn't seen, and so doesn't count;
`# nothing tried` where no lease was granted. With --expect `# unexpected PLACE` comes after a line that says where the
record first isn't what a server of these rules gives. With --record it goes to a file, and the rest is printed. Remarks
of --messages begin with `# served`, a request that was sent to the server, `# sent` and `# took`, each with the client
and the words of the message, in version 1; others say which dialect each client speaks.

Exit status: 0 the record is safe; 1 the schedule couldn't be driven to its end; 2 the command line is refused; 3 the
record is unsafe, or not as expected; 4 it is safe, and no lease was granted."""


def parser() -> argparse.ArgumentParser:
    made = parser_of("drive/run", "Drives a real SMB server through a schedule.", EPILOG)
    made.add_argument("schedule", metavar="SCHEDULE", help="a file with a schedule (docs/FORMATS.md), - for standard input")
    made.add_argument("--record", metavar="FILE", help="write the record there")
    made.add_argument("--messages", action="store_true",
                      help="write the messages into the record too, as remarks before what they are about")
    server_arguments(made)
    return made


def status_of(outcome: Outcome) -> int:
    if outcome.is_charged:
        return UNSAFE
    if outcome.is_sure and not outcome.verdict.is_safe:
        return NOT_DRIVEN
    return NOTHING_TRIED if outcome.tried_nothing else SAFE


def _drive(arguments: argparse.Namespace) -> int:
    runner = runner_of(arguments)
    outcome = runner.run(schedule_in(arguments.schedule, arguments.leasecheck))
    for line in outcome.skipped:
        print(f"left out: {line}", file=sys.stderr)
    record, difference = outcome.text(arguments.messages), [outcome.difference.text] if outcome.difference else []
    if arguments.record:
        write(arguments.record, record.encode())
        sys.stdout.write("".join(f"{it}\n" for it in (*outcome.tried.remarks, *difference, outcome.words)))
    else:
        sys.stdout.write(record + "".join(f"# {it}\n" for it in (*difference, outcome.words)))
    return status_of(outcome)


def main(words: Sequence[str] | None = None) -> int:
    return ended(parser(), _drive, words)
