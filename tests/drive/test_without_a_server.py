"""What of drive/ needs no server: orders of messages, texts of schedules, what is left of a shrunk one, the model server, and
records that are kept."""
from __future__ import annotations

import os
import random
import subprocess
import uuid
from contextlib import closing
from pathlib import Path

import pytest

pytest.importorskip("impacket", reason="there is no package impacket; tools/setup installs it")
# pylint: disable=wrong-import-position
from impacket.smb3 import SessionError  # noqa: E402
from smblease.drive import connections, explore_command, run_command  # noqa: E402
from smblease.drive.clock import PAIR, PAIRS, Clocks  # noqa: E402
from smblease.drive.explanations import Run, facts_of  # noqa: E402
from smblease.drive.explored import Head, Row, Table  # noqa: E402
from smblease.drive.faults import DriveFault  # noqa: E402
from smblease.drive.peers import DrivenPeer  # noqa: E402
from smblease.drive.place import Place  # noqa: E402
from smblease.drive.random_schedules import Chooser, blind_schedule  # noqa: E402
from smblease.drive.received import FileId  # noqa: E402
from smblease.drive.records import Arrival, Order, Record, applied  # noqa: E402
from smblease.drive.runner import Outcome, Runner  # noqa: E402
from smblease.drive.shrinking import shrunk  # noqa: E402
from smblease.drive.tried import Tried  # noqa: E402
from smblease.outs import Changed, Opened  # noqa: E402
from smblease.program import Verdict, judge, replay  # noqa: E402
from smblease.replies import Break, Closed, Created  # noqa: E402
from smblease.schedules import Event, EventKind, Schedule  # noqa: E402
from smblease.serve.dialects import Dialect  # noqa: E402
from smblease.values import Status  # noqa: E402
from tests.drive.commands import FOUND  # noqa: E402
from tests.paths import SCHEDULES, TESTS, TOP, name_of  # noqa: E402

NOTICE = Break(bytes(44))


@pytest.fixture
def step() -> Record:
    """A step on three connections: client 1 got the answer to a close and then a break, client 2 a break, client 3 the answer to
    a create and then a break."""
    record = Record()
    record.step([
        Arrival(3, 1, Created(1, 9, b""), Opened(1, 3)), Arrival(2, 2, NOTICE), Arrival(1, 4, Closed(7)), Arrival(3, 3, NOTICE),
        Arrival(1, 1, NOTICE),
    ])
    return record


def test_breaks_before_answers(step: Record) -> None:
    assert step.facts(Order.BREAKS_FIRST) == ["sent 1", "sent 1", "sent 2", "opened 1 3", "sent 3", "sent 3"]


def test_breaks_after_answers(step: Record) -> None:
    assert step.facts(Order.BREAKS_LAST) == ["sent 1", "opened 1 3", "sent 3", "sent 1", "sent 2", "sent 3"]


def test_change_past_the_end() -> None:
    assert applied(Changed(1, 1, 1, 4, b"Y"), b"abc") == b"abc\0Y"


def test_change_of_nothing() -> None:
    assert applied(Changed(1, 1, 1, 9, b""), b"abc") == b"abc"


def test_what_is_left_of_a_schedule() -> None:
    """A schedule stays what it was as long as events of three kinds are there."""
    needed = [Event.read("connect 3"), Event.read("open 3 2 rw rw RWH"), Event.read("cut 3")]
    others = [Event.read(f"read {client} 1") for client in (1, 2, 1, 2, 1, 3, 2, 1)]
    events = (*others[:3], needed[0], *others[3:5], needed[1], *others[5:], needed[2])
    clients = tuple(uuid.UUID(int=number) for number in (1, 2, 3))
    kinds = {it.kind for it in needed}
    left = shrunk(Schedule((b"a", b"b"), clients, events), lambda one: kinds <= {it.kind for it in one.events})
    assert left.text == Schedule((b"b",), clients[2:], tuple(map(Event.read, ("connect 1", "open 1 1 rw rw RWH", "cut 1")))).text


@pytest.mark.parametrize("path", SCHEDULES, ids=name_of)
def test_text_of_a_schedule(path: Path, program: str) -> None:
    text = path.read_text(encoding="ascii", errors="surrogateescape")
    assert replay(program, Schedule.read(text).text) == replay(program, path.read_text(encoding="ascii", errors="replace"))


@pytest.mark.parametrize("number", range(20))
def test_random_schedule(number: int, program: str) -> None:
    one, other = (blind_schedule(Chooser(random.Random(f"7:{number}"))) for _ in range(2))
    assert one == other
    assert replay(program, one.text)


class Forgetful:
    """A protocol whose server has no memory for the first sessions, or for the trees of these."""

    refusals = 0
    tries = 0
    step = "login"
    dialect = Dialect.SMB_2_1

    def __init__(self, place: Place, guid: bytes) -> None:
        self.given = (place, guid)
        Forgetful.tries += 1

    def refuse(self, step: str) -> None:
        if step == Forgetful.step and Forgetful.tries <= Forgetful.refusals:
            raise SessionError(Status.NO_MEMORY)

    def login(self, *_: str) -> None:
        self.refuse("login")

    def connectTree(self, _: str) -> int:  # pylint: disable=invalid-name
        self.refuse("tree")
        return 1

    def close_session(self) -> None:
        """Closes nothing."""


@pytest.mark.parametrize("step", ["login", "tree"])
@pytest.mark.parametrize(("refusals", "tries"), [(0, 1), (2, 3)])
def test_session_that_had_no_memory(refusals: int, tries: int, step: str, monkeypatch: pytest.MonkeyPatch) -> None:
    """STATUS_NO_MEMORY at a session set-up or a tree connect, which smbd answers while it starts, is tried again."""
    monkeypatch.setattr(connections, "Protocol", Forgetful)
    Forgetful.refusals, Forgetful.tries, Forgetful.step = refusals, 0, step
    connections.Connection(Place("127.0.0.1", 445, "share", "user", "password"), bytes(16))
    assert Forgetful.tries == tries


def test_session_that_never_has_memory(monkeypatch: pytest.MonkeyPatch) -> None:
    monkeypatch.setattr(connections, "Protocol", Forgetful)
    monkeypatch.setattr(connections, "BETWEEN_TRIES", 0.001)
    Forgetful.refusals, Forgetful.tries, Forgetful.step = 100, 0, "login"
    with pytest.raises(DriveFault, match="no connection to 127.0.0.1:445"):
        connections.Connection(Place("127.0.0.1", 445, "share", "user", "password"), bytes(16))
    assert Forgetful.tries == connections.SESSION_TRIES


def test_schedule_that_aims_at_a_write_during_a_break() -> None:
    """Three clients share a file, and nothing else goes on that would end what they have."""
    from_seed = [Chooser(random.Random(f"7:{number}"), aims=True) for number in range(20)]
    assert {(it.clients, it.files) for it in from_seed} == {(3, 1)}
    for chooser in from_seed:
        left_out = (EventKind.CUT, EventKind.EXPIRE, EventKind.SCAVENGE, EventKind.NOTICE)
        assert not [it for it in blind_schedule(chooser).events if it.kind in left_out or "durable" in it.words]


@pytest.mark.parametrize("path", SCHEDULES, ids=name_of)
def test_model_server(path: Path, program: str) -> None:
    """Without departures it has the facts of `leasecheck replay`, in whichever order within a step."""
    text = path.read_text(encoding="ascii", errors="replace")
    assert sorted(facts_of(Run(Schedule.read(text)))) == sorted(replay(program, text))


@pytest.mark.parametrize("name", FOUND)
def test_kept_record(name: str, program: str) -> None:
    text = (TOP / "drive" / "found" / f"{name}.record").read_text(encoding="ascii")
    assert judge(program, text).rule == FOUND[name]


def test_table_that_was_cut_short(tmp_path: Path) -> None:
    """`--resume` goes on after its last whole line."""
    table = tmp_path / "table"
    head = Head(7, "--smbd", "")
    whole = "1 7:1 guided 3 2 1 1 0 2 1 4 safe same\n2 7:2 blind 4 2 3 0 0 0 0 0 unsafe 12 3 opens_stay,given_back shrunk 11\n"
    table.write_text(f"{head.text}{whole}3 7:3 gui", encoding="ascii")
    with closing(Table(str(table), head, True)) as found:
        rows = list(found.rows)
    assert [(it.number, it.seed, it.verdict, it.left) for it in rows] == [(1, "7:1", "safe", None), (2, "7:2", "unsafe 12 3", 11)]
    assert table.read_text(encoding="ascii") == head.text + whole == head.text + "".join(it.text for it in rows)


KEPT = {"smbd": (True, set(), {}), "profile": (False, {1}, {5: 1})}


@pytest.mark.parametrize(("loses_kept", "kept", "kept_opens"), KEPT.values(), ids=KEPT)
def test_kept_opens(loses_kept: bool, kept: set[int], kept_opens: dict[int, int]) -> None:
    """What a client may have kept of a file that it opened, lost and opens again: on smbd none, by the profile the first one."""
    peer = DrivenPeer(uuid.UUID(int=1), loses_kept=loses_kept)
    peer.is_opened(1, FileId(5, 5))
    peer.is_cut()
    peer.is_opened(1, FileId(6, 6))
    assert (peer.kept, peer.kept_opens) == (kept, kept_opens)


def outcome_of(first: str, last: str) -> Outcome:
    """What a run came to whose record has these verdicts, with breaks first and last."""
    outcome = Outcome(Record(), Tried(asked=1, granted=1))
    outcome.verdicts = {Order.BREAKS_FIRST: Verdict(first), Order.BREAKS_LAST: Verdict(last)}
    return outcome


VERDICTS = {("safe", "safe"): ("safe", 0), ("unsafe 9 1", "unsafe 8 1"): ("unsafe 9 1", 3),
            ("unsafe 9 1", "safe"): ("unsure: unsafe 9 1, breaks after answers safe", 0),
            ("safe", "unsafe 9 2"): ("unsure: safe, breaks after answers unsafe 9 2", 0),
            ("unsafe 9 1", "unsafe 9 3"): ("unsure: unsafe 9 1, breaks after answers unsafe 9 3", 0),
            ("malformed 4", "malformed 4"): ("malformed 4", 1)}


@pytest.mark.parametrize("orders", VERDICTS, ids=" and ".join)
def test_one_verdict(orders: tuple[str, str], monkeypatch: pytest.MonkeyPatch, capsys: pytest.CaptureFixture[str],
                     program: str) -> None:
    """`run` prints one verdict, as its last line. What depends on the order within a step doesn't count for `explore` either."""
    outcome = outcome_of(*orders)
    monkeypatch.setattr(Runner, "run", lambda *_: outcome)
    schedule = str(TESTS / "schedules" / "nothing_happens")
    status = run_command.main(["--served", "--leasecheck", program, schedule])
    words, expected = VERDICTS[orders]
    assert (status, capsys.readouterr().out.splitlines()) == (expected, [f"# {words}"])
    row = Row(1, "7:1", "guided", 2, 1, outcome.tried, outcome.words, "same")
    assert (row.is_charged, row.is_fault) == (expected == 3, expected == 1)


def test_clocks_of_many_processes(tmp_path: Path) -> None:
    """One smbd serves many schedules: the place of a process that has ended is another one's."""
    with closing(Clocks(str(tmp_path / "clocks"))) as clocks:
        for _ in range(2 * PAIRS):
            with subprocess.Popen(["true"]) as process:
                clocks.put_forward(process.pid, 36)
        clocks.put_forward(os.getpid(), 36)
    pairs = list(PAIR.iter_unpack((tmp_path / "clocks").read_bytes()))
    assert pairs.count((os.getpid(), 36)) == 1 and pairs[-1] == (0, 0)


def test_what_keeps_every_schedule_from_being_driven(monkeypatch: pytest.MonkeyPatch, capsys: pytest.CaptureFixture[str],
                                                     tmp_path: Path) -> None:
    """It is said once, before a table is begun."""
    monkeypatch.setattr(os, "geteuid", lambda: 1000)
    assert explore_command.main(["--smbd", "--seed", "1", "--count", "3", "--folder", str(tmp_path / "explored")]) == 1
    assert capsys.readouterr() == ("", "drive/explore: a private smbd needs root and /usr/sbin/smbd (tools/setup installs it)\n")
    assert not (tmp_path / "explored").exists()
