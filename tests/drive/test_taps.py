"""`leasecheck capture` on taps of random runs: where server and clients keep the rules, nobody is charged, at either end.

How strong this is: `FOUND` has how many of 60 runs with a server that breaks a rule (faulty_servers) are found unsafe at the
client, and how many at the server: by what clients believed, and by what the server granted alone. The others can have happened
with a server that keeps the rules: many end before it answers what would show that a lease was there still. Where a server sends
breaks and waits for nobody, a client may have given up its cache before its acknowledgment, so that clients clash only where a
grant overtakes a break; but it granted what doesn't go together.

Runs that were charged once, though the server keeps the rules, are in charged_runs.
"""
from __future__ import annotations

from dataclasses import replace
from itertools import count, islice
from typing import NamedTuple

import pytest

from tests.drive.charged_runs import CHARGED, Charged
from tests.drive.faulty_servers import BreaksNothing, FaultyServer, GrantsWhatIsWanted, LeasesOutliveOpens, WaitsForNobody
from tests.drive.judging import NOTHING_JUDGED, SAFE, UNSAFE, judged
from tests.drive.missed_clashes import MISSED, Missed, opened_again_while_it_breaks, read_by_the_first
from tests.drive.raised_grants import raised
from tests.drive.taps import CLIENT, SERVER, SIDES
from tests.drive.tapped_runs import ACKNOWLEDGES, CLOSES_ANY, CLOSES_KNOWN, CREATES, SEEN_LOSSES, Loss, Run, Ways

RUNS, MANY_RUNS = 45, 300
STRAYS = (CREATES, CREATES, CLOSES_KNOWN)
SILENT_LOSSES = tuple(Loss(side, silent=True) for side in SIDES)
ALL = Ways(losses=(*SEEN_LOSSES, *SILENT_LOSSES), crossing=True, late=True, strays=(ACKNOWLEDGES, CLOSES_ANY, *STRAYS),
           previous=True, servers=2)
INNOCENT = {
    "nothing else": Ways(),
    "two servers": Ways(servers=2),
    "strays": Ways(strays=STRAYS),
    "ends": Ways(losses=SEEN_LOSSES),
    "ends that cross": Ways(losses=SEEN_LOSSES, crossing=True),
    "ends that nobody sees": Ways(losses=SILENT_LOSSES),
    "timers that run out early": Ways(late=True),
    "acknowledgments of too much": Ways(strays=(ACKNOWLEDGES,)),
    "closes before opens": Ways(strays=(CLOSES_ANY,)),
    "gaps": Ways(gaps=True),
    "all": ALL,
    "all, with gaps": replace(ALL, gaps=True),
    "all, at one server": replace(ALL, servers=1),
}
FAULTY_RUNS = 60


class Found(NamedTuple):
    believed: int
    granted: int


FOUND: dict[type[FaultyServer], dict[str, Found]] = {
    GrantsWhatIsWanted: {CLIENT: Found(29, 3), SERVER: Found(19, 13)},
    BreaksNothing: {CLIENT: Found(28, 4), SERVER: Found(8, 23)},
    WaitsForNobody: {CLIENT: Found(17, 17), SERVER: Found(0, 34)},
    LeasesOutliveOpens: {CLIENT: Found(1, 1), SERVER: Found(1, 1)},
}


class Charges(NamedTuple):
    """The sides at which a run is charged by what clients believed, and those at which it is by what the server granted alone."""

    believed: list[str]
    granted: list[str]


def charged(program: str, run: Run) -> Charges:
    taps = run.runs()
    found = {side: judged(program, taps.text(side), side) for side in SIDES}
    assert {it.status for it in found.values()} <= {SAFE, UNSAFE, NOTHING_JUDGED}
    unsafe = [side for side, it in found.items() if it.status == UNSAFE]
    believed = [side for side in unsafe if any(": unsafe, " in line for line in found[side].said)]
    return Charges(believed, [side for side in unsafe if side not in believed])


class Faulty(NamedTuple):
    """Runs with such a server: of each whether what clients believed clashed, and at which sides it is charged."""

    kind: type[FaultyServer]
    runs: list[tuple[bool, Charges]]


@pytest.fixture(name="faulty", scope="module", params=FOUND)
def _faulty(program: str, request: pytest.FixtureRequest) -> Faulty:
    runs = [Run(f"faulty {number}", Ways(), request.param) for number in range(FAULTY_RUNS)]
    sides = [charged(program, run) for run in runs]
    return Faulty(request.param, [(run.clashed, one) for run, one in zip(runs, sides)])


@pytest.mark.parametrize("runs", [RUNS, pytest.param(MANY_RUNS, marks=pytest.mark.long)])
@pytest.mark.parametrize("name", INNOCENT)
def test_nobody_is_charged(name: str, runs: int, program: str, request: pytest.FixtureRequest) -> None:
    seeds = [f"{request.config.getoption('seed')} {name} {runs} {number}" for number in range(runs)]
    assert {seed: sides for seed in seeds if any(sides := charged(program, Run(seed, INNOCENT[name])))} == {}


def test_much_is_judged(program: str) -> None:
    """Verdicts of random runs are mostly `safe`, not that nothing is judged."""
    texts = [Run(f"judged {number}", INNOCENT["all"]).runs() for number in range(20)]
    assert sum(judged(program, it.text(side), side).status == SAFE for it in texts for side in SIDES) >= 30


def test_faults_are_found(faulty: Faulty) -> None:
    charges = [it for _, it in faulty.runs]
    found = {side: Found(sum(side in it.believed for it in charges), sum(side in it.granted for it in charges)) for side in SIDES}
    assert found == FOUND[faulty.kind]


def test_faults_that_nobody_felt(faulty: Faulty) -> None:
    """What clients believed is one of the orders that fit a capture made at the server: where that never clashed, nobody is
    charged by it. At a client grants count where they arrive, which is before its machine takes them."""
    assert [sides for has_clash, sides in faulty.runs if not has_clash and SERVER in sides.believed] == []
    assert sum(not has_clash for has_clash, _ in faulty.runs) >= 15


def test_grants_that_are_raised(program: str, request: pytest.FixtureRequest) -> None:
    """Each of 50 captures made at a server, in which a grant beside a lease that the packets show to be held is raised to RWH."""
    seed = request.config.getoption("seed")
    texts = (text for number in count() for text in raised(Run(f"{seed} raised {number}", Ways()).runs().text(SERVER)))
    assert [judged(program, text, SERVER).status for text in islice(texts, 50)] == 50 * [UNSAFE]


@pytest.mark.parametrize("one", [pytest.param(one, id=one.follows.__name__, marks=pytest.mark.xfail(strict=True, reason=one.why))
                                 for one in MISSED])
def test_missed_clash(one: Missed, program: str) -> None:
    assert judged(program, one.text(), SERVER).status == UNSAFE


@pytest.mark.parametrize("one", [pytest.param(one, id=one.follows.__name__) for one in MISSED])
def test_twin_of_a_missed_clash(one: Missed, program: str) -> None:
    assert judged(program, one.text(twin=True), SERVER).status == UNSAFE


@pytest.mark.parametrize("is_empty", [True, False])
def test_clash_of_an_empty_file(is_empty: bool, program: str) -> None:
    assert judged(program, read_by_the_first(is_empty), SERVER).status == UNSAFE


@pytest.mark.xfail(strict=True, reason="the last open under the lease seems to be closed before the break is acknowledged; the "
                                       "break's change is placed first, so that this can't have happened")
@pytest.mark.parametrize("side", SIDES)
def test_run_that_is_not_judged(side: str, program: str) -> None:
    assert judged(program, opened_again_while_it_breaks(twin=False), side).status == SAFE


@pytest.mark.parametrize("side", SIDES)
def test_twin_of_a_run_that_is_not_judged(side: str, program: str) -> None:
    assert judged(program, opened_again_while_it_breaks(twin=True), side).status == SAFE


@pytest.mark.parametrize("one, side", [pytest.param(one, side, id=f"{one.run.__name__}-{side}") for one in CHARGED
                                       for side in SIDES])
def test_short_run(one: Charged, side: str, program: str) -> None:
    """The server keeps the rules."""
    assert judged(program, one.text(), side).status != UNSAFE


@pytest.mark.parametrize("one", [pytest.param(one, id=one.run.__name__) for one in CHARGED])
def test_twin_of_a_short_run(one: Charged, program: str) -> None:
    assert [judged(program, one.text(twin=True), side).status for side in SIDES] == [SAFE, SAFE]
