"""The rules that a server may choose: `replay --rules`, and a server of lines that is given them first."""
from __future__ import annotations

import contextlib
import random
import subprocess
from pathlib import Path

import pytest

from smblease import Order, Rise, Rules
from smblease.processes import LineClients, client_process
from smblease.schedules import Schedule
from smblease.world import MachineWorld
from tests import needs
from tests.paths import SCHEDULES, TOP, name_of
from tests.program.comparison import built
from tests.program.line_server import LineServer, server_process
from tests.program.ran import SAFE, Ended, run
from tests.program.straying import SecondOpens, StrayingSchedule
from tests.program.test_machines import Lines

PROFILE = Rules()
EVERY = [Rules(order, rise) for order in Order for rise in Rise]
AT_ONCE = 50
FLUSH, RISE = (TOP / "examples" / f"{name}.txt" for name in ("flush", "rise"))


def replayed(path: Path, rules: Rules) -> str:
    ended = run(["replay", "--rules", rules, path])
    assert (ended.status, ended.faults) == (0, b""), (rules, path.read_bytes())
    return ended.out.decode()


def facts_of(record: str, *kinds: str) -> list[str]:
    return [line for line in record.splitlines() if line.split(" ")[0] in kinds]


@pytest.mark.parametrize("rules", EVERY, ids=str)
def test_a_flush_beside_a_create_without_a_key(rules: Rules) -> None:
    """The client keeps a write, and flushes before it acknowledges the break of its own lease."""
    opened, changed = "opened 1 1", "changed 1 1 1 0 58"
    expected = [opened, opened, changed] if rules.order is Order.BY_CLIENT else [opened, changed, opened]
    assert facts_of(replayed(FLUSH, rules), "opened", "changed") == expected


@pytest.mark.parametrize("rules", EVERY, ids=str)
def test_a_lease_that_asks_for_more_beside_another(rules: Rules) -> None:
    last = [it for it in facts_of(replayed(RISE, rules), "believes") if it.startswith("believes 1 ")][-1]
    assert last == ("believes 1 1 RH" if rules.rise is Rise.AS_FREE else "believes 1 1 R")


@pytest.mark.parametrize("rules", EVERY, ids=str)
@pytest.mark.parametrize("path", SCHEDULES, ids=name_of)
def test_a_record_says_its_rules(path: Path, rules: Rules) -> None:
    """Where they aren't the profile's; and it is judged safe."""
    record = replayed(path, rules)
    assert run(["judge", "-"], record.encode()) == Ended(0, SAFE)
    if rules == PROFILE:
        assert record.encode() == run(["replay", path]).out
    else:
        assert record.endswith(f"\n# rules {rules}\n# safe\n")


@pytest.mark.parametrize("text", ["whole", "by-key,", "by-key,whole,", "BY-KEY,WHOLE", ""])
def test_no_rules(text: str) -> None:
    ended = run(["replay", "--rules", text, FLUSH])
    assert (ended.status, ended.out) == (2, b"") and b"by-client,as-free" in ended.faults


@pytest.mark.parametrize("rules", EVERY, ids=str)
@pytest.mark.parametrize("path", [FLUSH, RISE], ids=name_of)
def test_a_server_of_lines(program: str, path: Path, rules: Rules) -> None:
    """The clients and the server of a run, each in its process."""
    schedule, record = Schedule.read(path.read_text(encoding="ascii")), Lines()
    with contextlib.closing(LineClients(client_process(program, schedule))) as clients, \
            contextlib.closing(LineServer(server_process(program, schedule, rules))) as server:
        world = MachineWorld(schedule, clients, server, record)
        for event in schedule.events:
            world.happens(event)
    facts = [it for it in record.lines if not it.startswith("#")]
    assert facts == [it for it in replayed(path, rules).splitlines() if not it.startswith("#")]


@pytest.mark.long
@needs.program("cargo")
@pytest.mark.parametrize("made", [StrayingSchedule, SecondOpens])
@pytest.mark.parametrize("number", range(2))
def test_any_requests_under_every_rules(number: int, made: type[StrayingSchedule], chooser: random.Random,
                                        tmp_path: Path) -> None:
    """The plain server does the same, and every record is safe."""
    path, differing = tmp_path / f"{number}", 0
    for _ in range(AT_ONCE):
        text = made(chooser).text()
        path.write_text(text, encoding="ascii")
        ended = subprocess.run([built(), path], stdout=subprocess.PIPE, text=True, timeout=120, check=False)
        assert ended.returncode == 0, (text, ended.stdout[:2000])
        records = {rules: replayed(path, rules) for rules in EVERY}
        assert {run(["judge", "-"], it.encode()) for it in records.values()} == {Ended(0, SAFE)}, text
        facts = {rules: [it for it in record.splitlines() if not it.startswith("#")] for rules, record in records.items()}
        differing += any(facts[Rules(Order.BY_CLIENT, it)] != facts[Rules(Order.BY_KEY, it)] for it in Rise)
    assert differing or made is not SecondOpens, "no schedule shows the order"
