"""Captures that dumpcap makes on loopback.

- While a schedule is driven on a private smbd: clients believe nothing that they don't believe in the driver's own record,
  as far as the first rule goes by it, and the word on that rule is the same.
- While some lease tests of smbtorture run: a verdict for each file."""
from __future__ import annotations

import re
import subprocess
from collections.abc import Iterable, Sequence
from pathlib import Path

import pytest

from smblease.drive.runner import Runner
from smblease.drive.servers import PrivateServer
from smblease.program import judge
from smblease.schedules import Schedule
from tests import needs
from tests.drive.commands import PRIVATE_SMBD, ran
from tests.drive.dumping import capturing
from tests.drive.judging import SAFE, UNSAFE
from tests.paths import EXAMPLE, TOP, name_of

pytest.importorskip("impacket", reason=f"there is no package impacket; {needs.INSTALLS}")

pytestmark = [*PRIVATE_SMBD, needs.program("tshark"), needs.program("dumpcap")]
TORTURES = ("request", "nobreakself", "upgrade3")
TORTURES_311 = ("v2_epoch1", "v2_epoch2", "v2_complex2")
# whether what the clients believe breaks the first rule
DRIVEN = {EXAMPLE: False, TOP / "drive" / "found" / "lease_outlives_its_open.schedule": True}


def on_port(path: Path, port: int) -> str:
    """What a capture has of one server: others may run on this machine."""
    found = path.with_name("of_the_port.pcapng")
    subprocess.run(["tshark", "-r", path, "-Y", f"tcp.port == {port}", "-w", found], capture_output=True, check=True)
    return str(found)


def tortured(server: PrivateServer, tests: Sequence[str], path: Path, protocol: str) -> str:
    """What is captured while smbtorture runs these tests of smb2.lease, and the server is ended."""
    try:
        place = server.place
        words = ["smbtorture", f"//127.0.0.1/{place.share}", "-p", str(place.port), "-U", f"{place.user}%{place.password}",
                 f"--option=client min protocol={protocol}", f"--option=client max protocol={protocol}",
                 *(f"smb2.lease.{name}" for name in tests)]
        with capturing(path):
            subprocess.run(words, capture_output=True, timeout=60, check=False)
    finally:
        server.close()
    return on_port(path, place.port)


def stories(facts: Iterable[str]) -> list[list[str]]:
    """What each client believes of each file, from its first belief to its last: writes, something else, or nothing."""
    found: dict[tuple[str, str], list[str]] = {}
    for words in (fact.split(" ") for fact in facts):
        if words[0] == "believes":
            level = "writes" if "W" in words[3] else "nothing" if words[3] == "none" else "something"
            story = found.setdefault((words[1], words[2]), ["nothing"])
            story += [level] if level != story[-1] else []
    # (a capture goes on to the end of each connection)
    return sorted(it[1:-1] if it[-1] == "nothing" else it[1:] for it in found.values())


def is_part(story: list[str], whole: list[str]) -> bool:
    """Whether one story is another, or that without some beliefs which nothing of the capture shows."""
    left = iter(whole)
    return all(it in left for it in story)


@pytest.mark.parametrize("protocol", ["SMB2_10", "SMB3_11"], ids=["2.1", "3.1.1"])
@pytest.mark.parametrize("path", DRIVEN, ids=name_of)
def test_while_a_schedule_is_driven(path: Path, protocol: str, program: str, tmp_path: Path) -> None:
    ports: list[int] = []

    def server() -> PrivateServer:
        one = PrivateServer(protocol=protocol)
        ports.append(one.place.port)
        return one

    with capturing(tmp_path / "one.pcapng"):
        outcome = Runner(program, server).run(Schedule.read(path.read_text(encoding="ascii")))
    capture = on_port(tmp_path / "one.pcapng", ports[0])
    record = tmp_path / "record"
    for side in ("client", "server"):
        had = ran("capture", [capture, "--at", side, "--port", *ports, "--record", record])
        assert (had.status, had.faults) == (UNSAFE if DRIVEN[path] else SAFE, "")
        text = record.read_text(encoding="utf-8")
        assert (judge(program, text).rule == 1) == DRIVEN[path]
        if side == "client":
            driven = stories(outcome.record.facts())
            assert [it for it in stories(text.splitlines()) if not any(is_part(it, other) for other in driven)] == []


def verdicts_in(said: str) -> dict[str, str]:
    """The verdict on each file, by its name."""
    return {found.group(1): found.group(2) for found in re.finditer(r"^file .*\\([^\\]*): (\w+)", said, re.MULTILINE)}


@needs.program("smbtorture")
@pytest.mark.parametrize(("protocol", "tests"), [("SMB2_10", TORTURES), ("SMB3_11", TORTURES_311)], ids=["2.1", "3.1.1"])
def test_while_smbtorture_runs(protocol: str, tests: Sequence[str], tmp_path: Path) -> None:
    """Each test has files of its own, and its clients one ClientGuid, so that none can break rule 1. Leases of dialect 3.1.1
    are of version 2."""
    server = PrivateServer() if protocol == "SMB2_10" else PrivateServer(protocol=protocol)
    path = tortured(server, tests, tmp_path / "one.pcapng", protocol)
    for side in ("client", "server"):
        had = ran("capture", [path, "--at", side])
        assert (had.status, set(verdicts_in(had.out).values())) == (SAFE, {"safe"}), had.out
        assert len(verdicts_in(had.out)) >= len(tests), had.out
