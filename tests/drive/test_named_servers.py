"""A server that is named, whose timers are its own: what is waited for, and what is said of its clients."""
from __future__ import annotations

import random
import xml.etree.ElementTree as xml
from pathlib import Path

import pytest

from smblease.drive.drawing import drawn
from smblease.drive.random_schedules import Chooser, setup_of
from smblease.drive.runner import Runner
from smblease.drive.servers import NamedServer
from smblease.schedules import EventKind
from tests import needs
from tests.drive.commands import ran, with_private_smbd
from tests.drive.named import named_proved, named_smbd, place_of
from tests.paths import TESTS

pytest.importorskip("impacket", reason=f"there is no package impacket; {needs.INSTALLS}")

# Two clients have breaks to acknowledge when the timer of one is waited for; then the third caches writes.
TWO_BREAKS = """file 616263
client 11111111-1111-1111-1111-111111111111
client 22222222-2222-2222-2222-222222222222
client 33333333-3333-3333-3333-333333333333
connect 1
connect 2
connect 3
open 1 1 r rw RH
serve 1
take 1
open 2 1 r rw RH
serve 2
take 2
open 3 1 rw rw none
serve 3
take 3
write 3 1 0 58
serve 3
take 3
expire 1 1
close 3 1
serve 3
take 3
open 3 1 rw rw RWH
serve 3
take 3
"""
BREAK_TIMER, BREAK_TIME = "0.4", "0.6"


def test_timers_of_all_clients_run_out(program: str, tmp_path: Path) -> None:
    """While one timer is waited for those of the others run out too: their clients aren't good any more."""
    schedule = tmp_path / "schedule"
    schedule.write_text(TWO_BREAKS, encoding="ascii")
    with named_proved(program, "--break-timer", BREAK_TIMER) as words:
        had = ran("run", [*words, "--break-time", BREAK_TIME, schedule])
    assert (had.status, had.out.splitlines()[-1], had.faults) == (0, "# safe", "")
    facts = had.out.splitlines()
    assert facts[facts.index("expired 1 1") + 1] == "expired 2 1"
    assert "believes 3 1 RWH" in facts


# A held create that goes on once a timer ran out sends the next break, whose timer may run out in the same wait.
CHAIN = """file 616263
client 11111111-1111-1111-1111-111111111111
client 22222222-2222-2222-2222-222222222222
client 33333333-3333-3333-3333-333333333333
connect 1
connect 2
connect 3
open 1 1 rw rw RWH
serve 1
take 1
open 2 1 rw rw RWH
serve 2
open 3 1 r rw RH
serve 3
expire 1 1
"""


def test_breaks_that_come_while_one_is_waited_for(program: str, tmp_path: Path) -> None:
    """They are waited for as well, so that none is taken to go on that ran out unseen."""
    schedule = tmp_path / "schedule"
    schedule.write_text(CHAIN, encoding="ascii")
    with named_proved(program, "--break-timer", "0.2") as words:
        had = ran("run", [*words, "--break-time", "1", schedule])
    assert (had.status, had.faults) == (0, "")
    facts = had.out.splitlines()
    assert [it for it in facts if it.startswith("expired")] == ["expired 1 1", "expired 2 1"]


@pytest.mark.parametrize("text", [TWO_BREAKS, CHAIN], ids=["two breaks", "chain"])
def test_comparison_where_timers_were_waited_for(text: str, tmp_path: Path, program: str) -> None:
    """The profile's server is given the end of each timer that ran out, so that nothing is left to be explained; so it is where
    its rules are expected."""
    schedule = tmp_path / "schedule"
    schedule.write_text(text, encoding="ascii")
    with named_proved(program, "--break-timer", BREAK_TIMER, "--rules", "profile") as words:
        timed = [*words, "--break-time", "1"]
        assert ran("compare", [*timed, schedule]) == (0, "same\n", "")
        had = ran("run", [*timed, "--expect", "profile", schedule])
    assert (had.status, had.out.splitlines()[-1]) == (0, "# safe")


WITHOUT_LEASES = "[global]\n  smb2 leases = no\n"


@with_private_smbd
def test_server_without_leases(tmp_path: Path) -> None:
    """Nothing that it did could break a rule: that is said, and is no success."""
    with named_smbd(WITHOUT_LEASES) as words:
        had = ran("run", [*words, TESTS / "schedules" / "break_answered"])
        explored = ran("explore", [*words, "--seed", "1", "--count", "3", "--break-time", "0", "--folder", tmp_path / "explored",
                                   "--junit", tmp_path / "junit.xml"])
    assert (had.status, had.out.splitlines()[-1]) == (4, "# nothing tried")
    tried, all_of_them = explored.out.splitlines()
    assert tried.startswith("tried: 0 leases (3 schedules had none), 0 breaks (3 schedules had none), 0 acknowledgments")
    assert (explored.status, all_of_them.split(";")[0]) == (4, "3 driven, 0 unsafe, 3 tried nothing, 0 not driven to the end")
    suite = xml.parse(tmp_path / "junit.xml").getroot()
    assert (suite.attrib["tests"], suite.attrib["skipped"]) == ("3", "3")


def refusal(words: list[str], folder: Path) -> str:
    """What `explore` says of a server that no schedule can be driven on: one line, and no table is begun."""
    had = ran("explore", [*words, "--seed", "1", "--count", "5", "--folder", folder / "explored"])
    assert (had.status, had.out, had.faults.count("\n")) == (1, "", 1), had
    assert not (folder / "explored").exists()
    return had.faults


FUTILE = {
    "a share that can't be written": ("  read only = yes\n", "share in which files may be made"),
    "encryption": ("  smb encrypt = required\n", "without encryption"),
    "a dialect": ("[global]\n  server min protocol = NT1\n  server max protocol = SMB2_02\n", "has to speak dialect 2.1 or "),
}


@with_private_smbd
@pytest.mark.parametrize("why", FUTILE)
def test_server_that_cant_be_driven(why: str, tmp_path: Path) -> None:
    more, need = FUTILE[why]
    with named_smbd(more) as words:
        assert need in refusal(words, tmp_path)


@with_private_smbd
@pytest.mark.parametrize(("word", "value", "need"), [
    ("--user", "root%wrong", "let user root in"), ("--share", "none", "share none has"),
    ("--server", "127.0.0.1:1", "Connection refused; an SMB server has to be there")])
def test_words_that_dont_fit_the_server(word: str, value: str, need: str, tmp_path: Path) -> None:
    with named_smbd() as words:
        named = {**dict(zip(words[::2], words[1::2])), word: value}
        assert need in refusal([it for pair in named.items() for it in pair], tmp_path)


def test_no_scavenge_is_drawn(program: str) -> None:
    """On a named server it can't be driven, and would end every schedule that has one."""
    with named_proved(program) as words:
        place = place_of(words)
        runner = Runner(program, lambda: NamedServer(place, 40.0), stays=True)
        blind = [number for number in range(1, 41) if drawn(3, number).manner == "blind"]
        with runner.driving(setup_of(2, 1)) as driver:
            events = [event for number in blind for event in drawn(3, number, False).events(driver)]
    assert events and all(it.kind is not EventKind.SCAVENGE for it in events)
    chooser = Chooser(random.Random(3), scavenges=True)
    assert any(chooser.blind().kind is EventKind.SCAVENGE for _ in range(10000))


@with_private_smbd
@pytest.mark.parametrize(("more", "is_another"), [("", False), ("  level2 oplocks = no\n", True)])
def test_server_that_is_set_up_otherwise(more: str, is_another: bool, tmp_path: Path) -> None:
    """The departures that explain records were fitted to one configuration, and say nothing of another one."""
    with named_smbd(more) as words:
        had = ran("explore", [*words, "--seed", "4", "--count", "16", "--folder", tmp_path / "explored", "--break-time", "0.1",
                              "--no-shrink", "--jobs", "2"], seconds=300)
    assert ("the known departures are those of smbd 4.17.12" in had.out) == is_another, had


@with_private_smbd
def test_server_that_wants_signatures() -> None:
    with named_smbd("[global]\n  server signing = mandatory\n") as words:
        had = ran("run", [*words, TESTS / "schedules" / "break_answered"])
    assert had == (0, (TESTS / "runs" / "break_answered").read_text(encoding="ascii"), "")


def test_proved_server_under_its_rules(program: str, tmp_path: Path) -> None:
    """Schedules of which each other one aims, several at a time: each record is the one that is expected."""
    with named_proved(program, "--break-timer", "8") as words:
        had = ran("explore", [*words, "--seed", "2", "--count", "8", "--jobs", "2", "--break-time", "8.5", "--expect",
                              "by-key,whole", "--folder", tmp_path / "explored"], seconds=200)
    assert had.status == 0, had
    assert had.out.splitlines()[-1].startswith("8 driven, 0 unsafe, 0 unexpected, ")
    assert " 0 not driven to the end; " in had.out
