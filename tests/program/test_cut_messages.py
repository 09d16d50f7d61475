"""Create contexts, break messages and whole messages that are cut at each length, and a long chain of contexts."""
from __future__ import annotations

import pytest

from tests.program.ran import ACKNOWLEDGMENT, BREAK, Ended, run
from tests.program.test_transcripts import is_fault

LEASE = "0000000010000400000018002000000052714c7300000000000102030405060708090a0b0c0d0e0f07000000000000000000000000000000"
LEASE_LINES = "context 52714c73 32\nlease 00010203-0405-0607-0809-0a0b0c0d0e0f RWH\n"
FOREIGN = "1800000010000400ffff0000000000004d78416300000000"
CHAIN = "38" + LEASE[2:] + FOREIGN + "0000000010000400000018001000000044486e510000000000000000000000000000000000000000"
CHAIN_LINES = LEASE_LINES.replace("lease", "context 4d784163 0\ncontext 44486e51 16\nlease") + "durable\n"
HEADER = "fe534d424000" + 58 * "00"
CREATE = HEADER + "3900" + 42 * "00" + "7800" + "1000" + "88000000" + "38000000" + 16 * "61" + LEASE
# What a request for a lease, and a chain of three contexts, give where they are cut at so many bytes or more.
CUT_LEASE = {0: "nothing\n", 1: "1 Short at 0", 16: "4 BadName at 0", 20: "5 BadData at 0", 56: LEASE_LINES}
CUT_CHAIN = {0: "nothing\n", 1: "1 Short at 0", 16: "3 BadNext at 0", 56: "1 Short at 56", 72: "3 BadNext at 56",
             80: "1 Short at 80",
             96: "4 BadName at 80", 100: "5 BadData at 80", 120: CHAIN_LINES}
CUT_CREATE = {4: "1 Short at 0", 64: "1 Short at 64", 120: "5 BadData at 136", 192: LEASE_LINES}
CUT_NOTIFICATION = {4: "1 Short at 0", 64: "1 Short at 64"}


def prefixes(digits: str, answers: dict[int, str], most: int) -> list[tuple[str, str]]:
    return [(digits[:2 * count], answers[max(it for it in answers if it <= count)]) for count in range(min(answers), most + 1)]


def check(words: list[str], answer: str) -> None:
    """An answer of lines, or of a fault, whose second line has to say more."""
    ended = run(words)
    if answer.endswith("\n"):
        assert ended == Ended(0, answer.encode())
    else:
        assert ended[:2] == (1, b"")
        assert is_fault(ended.faults.decode(), f"fault {answer}\n"), ended.faults


@pytest.mark.parametrize(("digits", "answer"), [*prefixes(LEASE, CUT_LEASE, 56),
                         *prefixes(CHAIN, CUT_CHAIN, 120), *prefixes(CREATE, CUT_CREATE, 192)])
def test_cut_request(digits: str, answer: str) -> None:
    check(["show", "ask", digits], answer)


@pytest.mark.parametrize(("digits", "answer"), prefixes(HEADER + BREAK, CUT_NOTIFICATION, 107))
def test_cut_whole_notification(digits: str, answer: str) -> None:
    check(["show", "break", digits], answer)


@pytest.mark.parametrize("task", [["ack"], ["show", "break"]], ids=" ".join)
@pytest.mark.parametrize("count", range(44))
def test_cut_notification(task: list[str], count: int) -> None:
    check([*task, BREAK[:2 * count]], "1 Short at 0")


@pytest.mark.parametrize("task", ["ack", "response"])
@pytest.mark.parametrize("count", range(36))
def test_cut_acknowledgment(task: str, count: int) -> None:
    check(["show", task, ACKNOWLEDGMENT[:2 * count]], "1 Short at 0")


def test_300_contexts_before_a_lease() -> None:
    check(["show", "ask", FOREIGN * 300 + LEASE], "context 4d784163 0\n" * 300 + LEASE_LINES)
