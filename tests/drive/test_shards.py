"""drive/explore in shards, and the file that a build server reads. What each schedule comes to is given here by its number."""
from __future__ import annotations

import multiprocessing
import os
import signal
import xml.etree.ElementTree as xml
from multiprocessing.synchronize import Barrier
from pathlib import Path

import pytest

pytest.importorskip("impacket", reason="there is no package impacket; tools/setup installs it")
# pylint: disable=wrong-import-position
from smblease.drive import explore_command  # noqa: E402
from smblease.drive.exploration import Explorer  # noqa: E402
from smblease.drive.explored import Row  # noqa: E402
from smblease.drive.runner import NOTHING  # noqa: E402
from smblease.drive.slots import Slots  # noqa: E402
from smblease.drive.tried import Tried  # noqa: E402

COUNT = 12
VERDICTS = {3: "unsafe 12 3", 4: "fault smbd doesn't start", 5: "unsure: unsafe 9 1, breaks after answers safe", 7: "unsafe 40 1",
            8: "unsafe 8 3", 10: NOTHING}
TRIED = Tried(asked=4, granted=3, breaks=2, acknowledged=1, cached_reads=5)


def row_of(_: Explorer, number: int) -> Row:
    verdict = VERDICTS.get(number, "safe")
    left = 11 if number == 3 else None
    tried = Tried(asked=4) if verdict == NOTHING else TRIED
    likeness = "-" if number == 4 else "opens_stay"
    return Row(number, f"5:{number}", "guided", 30 + number, 20, tried, verdict, likeness, left, number == 8)


@pytest.fixture(autouse=True)
def given(monkeypatch: pytest.MonkeyPatch, tmp_path: Path) -> None:
    monkeypatch.setattr(Explorer, "explore", row_of)
    monkeypatch.setattr(Explorer, "check", lambda _: None)
    monkeypatch.chdir(tmp_path)


def explore(*words: str) -> int:
    return explore_command.main(["--smbd", "--seed", "5", "--count", str(COUNT), *words])


def rows_in(table: Path) -> list[str]:
    """Its lines after the two of its head."""
    return table.read_text(encoding="ascii").splitlines()[2:]


def suite(path: str) -> xml.Element:
    return xml.parse(path).getroot()


def counts(root: xml.Element) -> dict[str, int]:
    return {name: int(root.attrib[name]) for name in ("tests", "failures", "errors", "skipped")}


def test_file_of_a_build_server() -> None:
    assert explore("--junit", "one.xml") == 3
    root = suite("one.xml")
    assert (root.tag, counts(root)) == ("testsuite", {"tests": 12, "failures": 2, "errors": 1, "skipped": 2})
    cases = {it.attrib["name"]: it for it in root.iter("testcase")}
    assert sorted(cases) == sorted(f"schedule {number}" for number in range(1, 13))
    assert {it.attrib["classname"] for it in cases.values()} == {"seed 5"}
    kinds = {3: "failure", 4: "error", 8: "skipped", 10: "skipped"}
    failure, error, skipped, untried = (cases[f"schedule {number}"].find(kind) for number, kind in kinds.items())
    assert failure is not None and failure.attrib["message"] == "unsafe 12 3, opens_stay, 11 events are left"
    assert error is not None and error.attrib["message"] == "smbd doesn't start"
    assert skipped is not None and skipped.attrib["message"] == "unsafe 8 3, opens_stay, which is allowed"
    assert untried is not None and untried.attrib["message"].startswith("nothing tried: no lease was granted")
    assert [len(cases[f"schedule {number}"]) for number in (1, 5)] == [0, 0]


def test_shards_add_up_to_the_whole() -> None:
    explore("--junit", "whole.xml")
    for shard in range(1, 6):
        assert explore("--shard", f"{shard}/5", "--junit", f"{shard}.xml") in (0, 1, 3)
    shards = [suite(f"{shard}.xml") for shard in range(1, 6)]
    names = [it.attrib["name"] for root in shards for it in root.iter("testcase")]
    assert sorted(names) == sorted(it.attrib["name"] for it in suite("whole.xml").iter("testcase"))
    assert {name: sum(counts(root)[name] for root in shards) for name in counts(shards[0])} == counts(suite("whole.xml"))
    tables = [Path(f"explored-5-{shard}-of-5/table") for shard in range(1, 6)]
    assert sorted(line for it in tables for line in rows_in(it)) == sorted(rows_in(Path("explored-5/table")))


def test_shard_that_is_resumed() -> None:
    """What the table has already isn't driven again, and is in the file; a line that was cut short is."""
    assert explore("--shard", "1/3", "--junit", "first.xml") == 3
    table = Path("explored-5-1-of-3/table")
    whole = table.read_text(encoding="ascii")
    table.write_text(whole[:whole.rindex(" ")], encoding="ascii")
    assert explore("--shard", "1/3", "--resume", "--junit", "second.xml") == 3
    assert table.read_text(encoding="ascii") == whole
    assert counts(suite("second.xml")) == counts(suite("first.xml"))


@pytest.mark.parametrize("shard", ["0/2", "3/2", "1/0", "1", "a/b", "-1/2", "1/2/3"])
def test_shard_that_is_none(shard: str, capsys: pytest.CaptureFixture[str]) -> None:
    assert explore(f"--shard={shard}") == 2
    assert capsys.readouterr().err.startswith("drive/explore: --shard")


def test_file_that_cant_be_written(capsys: pytest.CaptureFixture[str]) -> None:
    assert explore("--junit", "/none/one.xml") == 1
    assert capsys.readouterr().err.startswith("drive/explore: /none/one.xml: ")


def test_nothing_was_tried(monkeypatch: pytest.MonkeyPatch, capsys: pytest.CaptureFixture[str]) -> None:
    """No schedule was granted a lease: that is no success, whatever is said of the records."""
    for number in range(1, COUNT + 1):
        monkeypatch.setitem(VERDICTS, number, NOTHING)
    assert explore("--junit", "one.xml") == 4
    assert "12 driven, 0 unsafe, 1 allowed, 12 tried nothing, 0 not driven to the end;" in capsys.readouterr().out
    assert counts(suite("one.xml")) == {"tests": 12, "failures": 0, "errors": 0, "skipped": 12}


OTHERWISE = (["--seed", "6"], ["--served"], ["--expect", "profile"], ["--skip"], ["--shard", "1/2"])


@pytest.mark.parametrize("words", OTHERWISE, ids=" ".join)
def test_table_that_was_made_otherwise(words: list[str], capsys: pytest.CaptureFixture[str]) -> None:
    """Rows of another seed, server or option don't go into it, and it stays as it is."""
    explore("--folder", "one")
    before = Path("one/table").read_text(encoding="ascii")
    server = [] if "--served" in words else ["--smbd"]
    resumed = [*server, "--seed", "5", "--count", "20", "--folder", "one", "--resume", *words]
    assert explore_command.main(resumed) == 2
    said = "drive/explore: one/table was made otherwise (# seed 5; server --smbd --dialect 3.1.1; options none)"
    assert capsys.readouterr().err.startswith(said)
    assert Path("one/table").read_text(encoding="ascii") == before


def test_schedule_by_its_own_seed() -> None:
    """The table has what draws a schedule by itself."""
    explore()
    seventh = rows_in(Path("explored-5/table"))[6]
    assert seventh.split(" ")[:2] == ["7", "5:7"]
    assert explore_command.main(["--smbd", "--seed", "5:7"]) == 3
    assert rows_in(Path("explored-5-7/table")) == [seventh]


@pytest.mark.parametrize("words", [["--seed", "5:7", "--count", "2"], ["--seed", "x", "--count", "2"], ["--seed", "5"],
                                   ["--seed", "5", "--count", "2", "--jobs", "0"]], ids=" ".join)
def test_words_that_name_no_schedules(words: list[str], capsys: pytest.CaptureFixture[str]) -> None:
    assert explore_command.main(["--smbd", *words]) == 2
    assert capsys.readouterr().err.startswith("drive/explore: --")


def test_several_at_a_time() -> None:
    """The table is the one of a single process."""
    assert explore("--folder", "one") == explore("--folder", "three", "--jobs", "3") == 3
    assert Path("three/table").read_text(encoding="ascii") == Path("one/table").read_text(encoding="ascii")


def test_process_that_ends(monkeypatch: pytest.MonkeyPatch, capsys: pytest.CaptureFixture[str]) -> None:
    """What was driven stays in the table."""
    def ends(explorer: Explorer, number: int) -> Row:
        if number == 6:
            os.kill(os.getpid(), signal.SIGKILL)
        return row_of(explorer, number)
    monkeypatch.setattr(Explorer, "explore", ends)
    assert explore("--jobs", "2") == 1
    assert "ended before the" in capsys.readouterr().err
    found = [int(it.split(" ")[0]) for it in rows_in(Path("explored-5/table"))]
    assert 6 not in found and set(range(1, 5)) <= set(found)


def _waits(slots: Slots, both: Barrier) -> None:
    with slots.taken(), slots.lent():
        both.wait(20)


def test_runs_that_wait_for_timers_wait_beside_each_other() -> None:
    """Two that have the only slot one after the other wait at the same time."""
    context = multiprocessing.get_context("fork")
    slots, both = Slots(1), context.Barrier(2)
    processes = [context.Process(target=_waits, args=(slots, both)) for _ in range(2)]
    for process in processes:
        process.start()
    for process in processes:
        process.join()
    assert [it.exitcode for it in processes] == [0, 0]
