"""Captures of random clients on a private smbd that isn't modified: what is charged has a cause that is known, and the leases
that are named are those of the packets. A grant that is raised in such a capture is found."""
from __future__ import annotations

import random
import struct
import subprocess
from collections.abc import Callable, Iterator, Sequence
from itertools import count, islice
from pathlib import Path

import pytest

from smblease.drive.capture_findings import FileFinding, findings_in
from smblease.drive.servers import PrivateServer
from smblease.drive.tshark import ANY_PORT

from tests import needs
from tests.drive.causes import STATES, Cause, Causes
from tests.drive.commands import PRIVATE_SMBD
from tests.drive.dumping import capturing
from tests.drive.hand_made import PENDING, H, R, W
from tests.drive.judging import SAFE, UNSAFE, judged
from tests.drive.raised_grants import raised
from tests.drive.random_captures import SIDES, captured, capture, dialect_of, lines_in
from tests.drive.wander_wire import DATA, PROTOCOLS, READ_ATTRIBUTES, Ask, Channel, writes
from tests.drive.wandering import quiet_ways

pytestmark = [*PRIVATE_SMBD, needs.program("tshark"), needs.program("dumpcap")]
KNOWN = {Cause.ATTRIBUTES, Cause.OUTLIVES}
WORDS = {"safe", "unsafe", "judged in part", "nothing judged"}
DIALECTS = pytest.mark.parametrize("dialect", PROTOCOLS)


def done(channel: Channel, made: Callable[[int], bytes]) -> bytes:
    """The answer to a request, which is done."""
    number = channel.sends(made)
    while (had := channel.received(10)) is not None:
        status, identifier = struct.unpack_from("<L12xQ", had, 8)
        if identifier == number and status != PENDING:
            return had
    raise AssertionError("there is no answer")


def granted_at(path: Path, port: int) -> set[tuple[int, str, int]]:
    """What tshark shows of the leases that CREATE responses grant: packet, key and state."""
    words = ["tshark", "-r", str(path), "-X", f"lua_script:{ANY_PORT}", "-d", f"tcp.port=={port},smb2_tcp", "-T", "fields",
             "-Y", "smb2.cmd == 5 && smb2.flags.response == 1 && smb2.lease.lease_key"]
    words += [word for it in ("frame.number", "smb2.lease.lease_key", "smb2.lease.lease_state") for word in ("-e", it)]
    rows = subprocess.run(words, capture_output=True, text=True, check=True).stdout.splitlines()
    return {(int(packet), key, int(state, 16)) for packet, keys, states in (it.split("\t") for it in rows)
            for key, state in zip(keys.split(","), states.split(","))}


def text_of(lines: Sequence[str]) -> str:
    return "".join(f"{line}\n" for line in lines)


def check_named(path: Path, port: int, files: Sequence[FileFinding]) -> None:
    """The leases that are named of files are those of the packets."""
    named = [(it.granted.packet, it.key, sum(STATES[one] for one in it.state if one in STATES)) for file in files
             for it in file.leases if it.granted]
    assert named and set(named) <= granted_at(path, port)


@DIALECTS
def test_lease_for_attributes_alone(dialect: str, program: str, tmp_path: Path) -> None:
    """smbd grants RWH to an open for attributes alone, beside another client's lease (docs/FOUND_ON_SMBD.md)."""
    path, server = tmp_path / "one.pcapng", PrivateServer(protocol=PROTOCOLS[dialect])
    try:
        with capturing(path, f"tcp port {server.place.port}"):
            one, other = (Channel(server.place, bytes([number] * 16), dialect) for number in (1, 2))
            had = done(one, Ask("f", DATA, 7, 1, R | H).message)[128:144]
            done(other, Ask("f", READ_ATTRIBUTES, 7, 2, R | W | H).message)
            # (the end of a connection may have been on its way since the message before the last one: missed_clashes)
            for _ in range(2):
                done(one, lambda it: writes(had, 0, it))
            one.closes()
            other.closes()
    finally:
        server.close()
    lines = lines_in(path, server.place.port)
    for side in SIDES:
        found = judged(program, text_of(lines), side)
        files = findings_in(found.said).files
        assert (found.status, [it.is_granted for it in files]) == (UNSAFE, [True]), found.said
        assert Causes(lines).of(files[0]) == {Cause.ATTRIBUTES}
        check_named(path, server.place.port, files)


@pytest.mark.parametrize("number", [*range(2), *(pytest.param(it, marks=pytest.mark.long) for it in range(2, 20))])
def test_what_is_charged(number: int, request: pytest.FixtureRequest, tmp_path: Path) -> None:
    one = captured(request.config.getoption("seed"), number, tmp_path)
    for side in SIDES:
        files, had = one.unsafe(side), one.said[side]
        assert (had.faults, had.status == UNSAFE) == ("", bool(files)) and one.verdict(side) in WORDS
        if files:
            check_named(one.path, one.port, files)
        causes = [Causes(one.lines).of(it) for it in files]
        assert [it for it in causes if not it or not it <= KNOWN] == [], had.out


def quiet(program: str, seed: int, folder: Path) -> Iterator[str]:
    """The lines of captures of clients that hold leases side by side, as far as they are safe."""
    for number in count():
        path = folder / f"quiet-{number}.pcapng"
        port = capture(random.Random(f"quiet {seed} {number}"), quiet_ways(dialect_of(number)), path)
        text = text_of(lines_in(path, port))
        if judged(program, text, "server").status == SAFE:
            yield text


@pytest.mark.parametrize("captures", [5, pytest.param(50, marks=pytest.mark.long)])
def test_grants_that_are_raised(captures: int, program: str, request: pytest.FixtureRequest, tmp_path: Path) -> None:
    """In a capture of smbd one grant beside a lease that the packets show to be held is raised to RWH."""
    texts = (it for text in quiet(program, request.config.getoption("seed"), tmp_path) for it in raised(text))
    assert [judged(program, text, "server").status for text in islice(texts, captures)] == captures * [UNSAFE]
