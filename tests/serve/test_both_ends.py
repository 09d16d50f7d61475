"""The proved clients on the proved server over SMB: each record is that of `replay`, and so are random ones'."""
from __future__ import annotations

import random
import subprocess
from pathlib import Path

import pytest

from smblease.schedules import Schedule
from smblease.serve.server_process import DrivenServer
from tests import needs
from tests.paths import SCHEDULES, TOP

pytestmark = needs.package("impacket")
RANDOM, STRAYED = range(10), range(15)
SHORT = 3


def check(program: str, schedule: Schedule, folder: Path) -> None:
    """Within a step the facts of each client are in order. The server's own record is safe."""
    from tests.serve.driving import facts_and_replay  # pylint: disable=import-outside-toplevel
    servers: list[DrivenServer] = []

    def server() -> DrivenServer:
        servers.append(DrivenServer(program, str(folder / "record")))
        return servers[-1]
    is_same, facts, expected = facts_and_replay(program, server, schedule)
    assert is_same, (schedule.text, facts, expected)
    assert [(it.verdict, it.status) for it in servers] == [("safe", 0)]


@pytest.mark.parametrize("path", [pytest.param(it, id=it.name) for it in SCHEDULES])
def test_schedule(program: str, path: Path, tmp_path: Path) -> None:
    check(program, Schedule.read(path.read_text(encoding="utf-8")), tmp_path)


@pytest.mark.parametrize("rules, name", [("by-client,whole", "rise.txt"), ("by-key,whole", "rise.txt"),
                                         ("by-key,as-free", "flush.txt"), ("profile", "flush.txt")])
def test_other_rules(program: str, rules: str, name: str) -> None:
    """Schedules that have another record under the profile's rules."""
    words: list[str | Path] = ["--leasecheck", program, "--served", "--rules", rules, TOP / "examples" / name]
    ended = subprocess.run([TOP / "drive" / "compare", *words], capture_output=True, text=True, timeout=60, check=False)
    assert (ended.returncode, ended.stdout, ended.stderr) == (0, "same\n", "")


@pytest.mark.parametrize("number", [pytest.param(it, marks=[] if it < SHORT else pytest.mark.long) for it in RANDOM])
def test_random_schedule(program: str, number: int, chooser: random.Random, tmp_path: Path) -> None:
    from tests.serve.driving import random_schedule  # pylint: disable=import-outside-toplevel
    assert number in RANDOM
    check(program, random_schedule(chooser), tmp_path)


@pytest.mark.parametrize("number", [pytest.param(it, marks=[] if it < SHORT else pytest.mark.long) for it in STRAYED])
def test_schedule_with_stray_requests(program: str, number: int, chooser: random.Random, tmp_path: Path) -> None:
    from tests.serve.strays import strayed_schedule  # pylint: disable=import-outside-toplevel
    assert number in STRAYED
    check(program, strayed_schedule(program, chooser), tmp_path)
