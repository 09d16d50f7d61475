"""Captures of random clients (wandering) on a private smbd, and what drive/capture says of them.

    PYTHONPATH=python python3 -m tests.drive.random_captures --seed 1 --count 68 FOLDER

keeps the captures in FOLDER, named by seed and number; the even numbers are of dialect 2.1, the odd ones of 3.1.1. A row for each
has the verdicts on it as a capture made at the server and as one made at the client, with the causes of what is unsafe by its
packets; the last lines count the former.
"""
from __future__ import annotations

import argparse
import random
from collections import Counter
from pathlib import Path
from typing import NamedTuple

from smblease.drive.capture_findings import FileFinding, findings_in
from smblease.drive.capture_lines import lines_of
from smblease.drive.packets import read_capture
from smblease.drive.servers import PrivateServer

from tests.drive.causes import Causes
from tests.drive.commands import Ran, ran
from tests.drive.dumping import capturing
from tests.drive.judging import judged
from tests.drive.wander_wire import PROTOCOLS
from tests.drive.wandering import Wandering, Ways, drawn_ways
from tests.paths import built_program

SIDES = ("server", "client")
MULTICHANNEL = "[global]\n  server multi channel support = yes\n"


class Captured(NamedTuple):
    """A capture of a server's port, its lines, and what drive/capture says of it as made at either side."""

    path: Path
    port: int
    lines: list[str]
    said: dict[str, Ran]

    def verdict(self, side: str) -> str:
        return self.said[side].out.partition("\n")[0]

    def unsafe(self, side: str) -> list[FileFinding]:
        """The files that are unsafe."""
        found = judged(built_program(), "".join(f"{it}\n" for it in self.lines), side)
        return [it for it in findings_in(found.said).files if it.verdict == "unsafe"]

    def told(self, side: str) -> str:
        """The verdict, with its causes."""
        causes = {it for file in self.unsafe(side) for it in Causes(self.lines).of(file)}
        return ", ".join([self.verdict(side), *sorted(it.value for it in causes)])


def dialect_of(number: int) -> str:
    return list(PROTOCOLS)[number % 2]


def capture(chance: random.Random, ways: Ways, path: Path) -> int:
    """Captures a run of clients that like to do this; the server's port, which tshark may know as that of another protocol."""
    server = PrivateServer(protocol=PROTOCOLS[ways.dialect], more=MULTICHANNEL if ways.multichannel else "")
    try:
        with capturing(path, f"tcp port {server.place.port}"):
            Wandering(chance, ways, server).runs()
    finally:
        server.close()
    return server.place.port


def lines_in(path: Path, port: int) -> list[str]:
    """The lines of a capture."""
    return list(lines_of(read_capture(str(path), [port])))


def captured(seed: int, number: int, folder: Path) -> Captured:
    """Makes the capture of a number, and judges it."""
    chance, path = random.Random(f"wandering {seed} {number}"), folder / f"{seed}-{number}.pcapng"
    port = capture(chance, drawn_ways(chance, dialect_of(number)), path)
    said = {side: ran("capture", [path, "--at", side, "--port", port]) for side in SIDES}
    return Captured(path, port, lines_in(path, port), said)


def main() -> None:
    made = argparse.ArgumentParser(description=(__doc__ or "").partition("\n")[0])
    made.add_argument("folder", type=Path)
    made.add_argument("--seed", type=int, default=1)
    made.add_argument("--count", type=int, default=10)
    arguments = made.parse_args()
    arguments.folder.mkdir(parents=True, exist_ok=True)
    counts: Counter[str] = Counter()
    for number in range(arguments.count):
        one = captured(arguments.seed, number, arguments.folder)
        told = {side: one.told(side) for side in SIDES}
        counts[told["server"]] += 1
        print(number, dialect_of(number), *(f"{side}: {word}" for side, word in told.items()), sep="\t", flush=True)
    for word, many in sorted(counts.items()):
        print(many, word, sep="\t")


if __name__ == "__main__":
    main()
