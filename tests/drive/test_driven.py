"""Schedules on a private smbd, which is started for each.

- tests/schedules: where smbd does what docs/PROFILE.md says, the record is the one under tests/runs, letter by letter; where it
  doesn't (DEPARTING), it is judged as said there.
- drive/found: each is unsafe by its rule, in both orders of messages.
- drive/departures: each is explained by the departure that it is named after, and no other (BESIDE names one).
- Broken clients are found unsafe by the rule that they break; a server that is named is driven by its port; a schedule that
  drive/explore draws is unsafe, and shrunk.
"""
from __future__ import annotations

import re
from contextlib import closing
from pathlib import Path

import pytest

from smblease.drive import servers
from smblease.drive.explanations import Run, likeness_of
from smblease.drive.exploration import Explorer
from smblease.drive.kept_servers import KeptServers
from smblease.drive.model import Departure
from smblease.drive.runner import Filter, Outcome, Runner
from smblease.drive.servers import PrivateServer
from smblease.program import replay
from smblease.schedules import Schedule
from tests import needs
from tests.drive import broken_clients
from tests.drive.commands import DEPARTURES, FOUND, PRIVATE_SMBD, facts_in, ran, tried
from tests.drive.named import named_smbd
from tests.paths import SCHEDULES, TESTS, TOP, name_of

pytest.importorskip("impacket", reason=f"there is no package impacket; {needs.INSTALLS}")

pytestmark = PRIVATE_SMBD
# Schedules in which smbd isn't the server of the profile, and the rule that the record breaks, if any.
DEPARTING: dict[str, int | None] = {
    "answer_of_a_create_lost": None, "break_holds_a_write": None, "break_timer": 3, "raw_requests": None,
    "refused_requests": None, "replies_lost": None, "timer_while_asking": None, "two_files": None,
}
BESIDE = {
    "breaking_kept": ["given_back"], "back_not_kept": ["given_back", "own_dropped"],
    "unkept_gives_back": ["given_back", "kept_alone"], "writer_breaks_none": ["given_back"],
    "kept_holds_all": ["breaking_kept", "creates_wait", "nothing_behind"],
}
HERE = TESTS / "drive"
BROKEN: list[tuple[Filter, Path, int]] = [
    (broken_clients.GoesOnAfterItsAcknowledgment, TESTS / "schedules" / "break_answered", 1),
    (broken_clients.IgnoresBreaks, HERE / "break_ignored.schedule", 2),
    (broken_clients.KeepsItsBase, TESTS / "schedules" / "reconnect_reads_anew", 2),
    (broken_clients.AcknowledgesFirst, TESTS / "schedules" / "break_answered", 3),
    (broken_clients.SettlesOnSending, TESTS / "schedules" / "writes_that_cross", 4),
]
# Of this seed the schedule of this number is unsafe by this rule, and has at most so many events when it is shrunk.
SEED, NUMBER, RULE, MOST = 1, 289, 3, 15


@pytest.fixture
def runner(program: str) -> Runner:
    return Runner(program, PrivateServer, skip=True)


def schedule_of(path: Path) -> Schedule:
    return Schedule.read(path.read_text(encoding="ascii", errors="surrogateescape"))


def expect(outcome: Outcome, rule: int | None) -> None:
    """In both orders of messages it is unsafe by this rule, or safe where there is none."""
    verdicts = list(outcome.verdicts.values())
    assert [it.rule for it in verdicts] == [rule] * len(verdicts)
    assert rule or all(it.is_safe for it in verdicts), verdicts


@pytest.mark.parametrize("path", SCHEDULES, ids=name_of)
def test_schedule(path: Path, runner: Runner) -> None:
    def check() -> None:
        outcome = runner.run(schedule_of(path))
        if path.name not in DEPARTING:
            assert outcome.record.facts() == facts_in(TESTS / "runs" / path.name)
        expect(outcome, DEPARTING.get(path.name))
    tried(check)


@pytest.mark.parametrize("name", FOUND)
def test_what_was_found(name: str, runner: Runner) -> None:
    schedule = schedule_of(TOP / "drive" / "found" / f"{name}.schedule")
    tried(lambda: expect(runner.run(schedule), FOUND[name]))


@pytest.mark.parametrize("name", DEPARTURES)
def test_departure(name: str, runner: Runner) -> None:
    schedule = schedule_of(TOP / "drive" / "departures" / f"{name}.schedule")

    def check() -> None:
        facts = runner.run(schedule).record.facts()
        assert likeness_of(runner.program, Run(schedule), facts).word == ",".join(sorted([name, *BESIDE.get(name, [])]))
    tried(check)


@pytest.mark.parametrize(("client", "path", "rule"), BROKEN, ids=[getattr(it[0], "__name__") for it in BROKEN])
def test_broken_client(client: Filter, path: Path, rule: int, program: str) -> None:
    tried(lambda: expect(Runner(program, PrivateServer, filtered=client).run(schedule_of(path)), rule))


# The bytes of these ClientGuids, which begin the lease keys too, are the names of contexts.
NAMES = """file 616263
client 44486e43-5271-4c73-4448-6e4344486e51
client 52714c73-4448-6e43-5271-4c7344486e51
connect 1
connect 2
open 1 1 rw rw RWH durable
serve 1
take 1
open 2 1 r rw RH
serve 2
take 1
serve 1
take 1
take 2
raw 2 create 1 r rw 0000000010000400000018002000000052714c730000000044486e4344486e4344486e430100000001000000000000000000000000000000
serve 2
take 2
raw 1 write 1 1 0 58
serve 1
take 1
"""


def test_keys_with_the_names_of_contexts(program: str, runner: Runner) -> None:
    """Which contexts a CREATE has is read, and not found by looking for a word."""
    schedule = Schedule.read(NAMES)

    def check() -> None:
        facts = runner.run(schedule).record.facts()
        assert [it for it in facts if it.startswith("opened")] == ["opened 1 1", "opened 1 2", "opened 1 2"]
        assert sorted(facts) == sorted(replay(program, schedule.text))
    tried(check)


def test_schedule_that_aims_at_a_write_during_a_break(program: str, tmp_path: Path) -> None:
    """Of seed 10 the schedule 37 is one, and finds it."""
    def check() -> None:
        row = Explorer(Runner(program, PrivateServer), 10, str(tmp_path), False).explore(37)
        assert (row.manner, row.verdict[-2:], row.likeness) == ("aimed", " 2", "writes_go_on"), row
    tried(check)


def test_schedule_that_is_unsafe_by_what_is_allowed(program: str, tmp_path: Path) -> None:
    """Without that departure the model server is safe, so the schedule doesn't count."""
    def check() -> None:
        runner = Runner(program, PrivateServer)
        row = Explorer(runner, SEED, str(tmp_path), True, frozenset({Departure.OPENS_STAY})).explore(NUMBER)
        assert (row.is_allowed, row.is_unsafe, row.left) == (True, False, None), row
        assert row.text.endswith(" allowed\n")
        row = Explorer(runner, SEED, str(tmp_path), False, frozenset({Departure.GIVEN_BACK})).explore(NUMBER)
        assert (row.is_allowed, row.is_unsafe) == (False, True), row
    tried(check)


def test_server_that_is_named() -> None:
    def check() -> None:
        with named_smbd() as words:
            had = ran("run", [*words, TESTS / "schedules" / "break_answered"])
        assert had == (0, (TESTS / "runs" / "break_answered").read_text(encoding="ascii"), "")
    tried(check)


LEAVES = """file 616263
client 11111111-1111-1111-1111-111111111111
client 22222222-2222-2222-2222-222222222222
connect 1
open 1 1 rw rw RWH durable
serve 1
take 1
cut 1
"""


def test_run_after_one_that_left_an_open(tmp_path: Path) -> None:
    """ClientGuids and lease keys on the wire are of each run alone: what one leaves refuses no lease of the next."""
    first = tmp_path / "leaves"
    first.write_text(LEAVES, encoding="ascii")

    def check() -> None:
        with named_smbd() as words:
            assert ran("run", [*words, first]).status == 0
            had = ran("run", [*words, TESTS / "schedules" / "break_answered"])
        assert had == (0, (TESTS / "runs" / "break_answered").read_text(encoding="ascii"), "")
    tried(check)


def test_run_without_a_lease(program: str, tmp_path: Path, monkeypatch: pytest.MonkeyPatch) -> None:
    """A server that grants no lease shows nothing, and that is said."""
    monkeypatch.setattr(servers, "CONFIGURATION", servers.CONFIGURATION.replace("smb2 leases = yes", "smb2 leases = no"))
    explorer = Explorer(Runner(program, PrivateServer), SEED, str(tmp_path), False)
    row = explorer.explore(NUMBER)
    assert (row.verdict, row.tried.granted, row.is_unsafe, row.result()[0]) == ("nothing tried", 0, False, "skipped"), row
    kept = (tmp_path / f"{NUMBER}.record").read_text(encoding="ascii")
    assert re.search(r"^# no lease was granted: \d+ creates asked for one$", kept, re.MULTILINE)
    schedule = schedule_of(TESTS / "schedules" / "break_answered")
    outcome = Runner(program, PrivateServer).run(schedule)
    assert outcome.verdict.is_safe
    assert outcome.text().endswith("\n# no lease was granted: 2 creates asked for one\n")


REFUSED_KEY = """file 616263
file 646566
client 11111111-1111-1111-1111-111111111111
connect 1
open 1 1 rw rw RWH
serve 1
take 1
raw 1 create 2 rw rw 0000000010000400000018002000000052714c73000000001111111111111111111111110100000007000000000000000000000000000000
serve 1
take 1
"""


def test_create_that_is_refused_for_its_key(runner: Runner) -> None:
    """It asks for the second file under the key of the first."""
    outcome = runner.run(Schedule.read(REFUSED_KEY))
    assert outcome.tried.refused == 1
    assert outcome.text().endswith("\n# 1 create was refused for its lease key (STATUS_INVALID_PARAMETER)\n")


def test_one_smbd_for_many_schedules(program: str, tmp_path: Path) -> None:
    """Its rows are those of servers that are each started for one."""
    made: list[PrivateServer] = []

    def make() -> PrivateServer:
        made.append(PrivateServer())
        return made[-1]

    def check() -> None:
        made.clear()
        with closing(Explorer(Runner(program, KeptServers(make)), SEED, str(tmp_path), False)) as explorer:
            rows = [explorer.explore(number) for number in range(1, 7)]
        assert len(made) == 1
        own = Explorer(Runner(program, PrivateServer), SEED, str(tmp_path), False)
        assert rows == [own.explore(number) for number in range(1, 7)]
    tried(check)


@pytest.mark.long
def test_schedule_that_is_drawn_and_shrunk(program: str, tmp_path: Path) -> None:
    def check() -> None:
        row = Explorer(Runner(program, PrivateServer), SEED, str(tmp_path), True).explore(NUMBER)
        assert row.verdict.endswith(f" {RULE}") and (row.left or MOST + 1) <= MOST, row
        expect(Runner(program, PrivateServer).run(schedule_of(tmp_path / f"{NUMBER}.shrunk.schedule")), RULE)
    tried(check)
