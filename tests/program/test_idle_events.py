"""`replay --explain`: what is said of events that do nothing. By hand, and against a world whose links and queues are kept in
Python. The record without these remarks is that of `replay`, and a schedule without these events has that record too."""
from __future__ import annotations

import random
import re
from pathlib import Path

import pytest

from tests.paths import EXAMPLE, SCHEDULES, name_of
from tests.program.idling import event_lines, explained_record
from tests.program.ran import SAFE, Ended, run
from tests.program.straying import StrayingSchedule

REMARK = re.compile(r"# line ([0-9]+) (?:did nothing|was refused as [a-z]+): .*\n")
ONE, TWO = "11111111-1111-1111-1111-111111111111", "22222222-2222-2222-2222-222222222222"
# A schedule whose events that do nothing have the remark behind them that stands in the record; `=` begins a fact of the record.
BY_HAND = f"""\
file 61
# a remark, and an empty line

client {ONE}
client {TWO}
= start 1 61
serve 1
# line 6 did nothing: no request of client 1 is on its way
cut 1
# line 7 did nothing: client 1 isn't connected
notice 1
# line 8 did nothing: client 1 isn't connected
open 1 1 rw rw RWH durable
# line 9 was refused as offline: the client isn't connected, or its open isn't connected again yet
connect 1
= joined 1
connect 1
# line 11 did nothing: client 1 is connected
notice 1
# line 12 did nothing: client 1 is connected
read 1 1
# line 13 was refused as notopen: the client has no such file, or no handle on it
open 1 2 r r R
# line 14 was refused as notopen: the client has no such file, or no handle on it
open 1 1 rw rw RWH durable
open 1 1 rw rw RWH durable
# line 16 was refused as busy: an answer of the server has to come first
take 1
# line 17 did nothing: no message to client 1 is on its way
serve 1
= opened 1 1
= sent 1
take 1
= took 1
= believes 1 1 RWH
flush 1 1
# line 20 did nothing: client 1 has no unsent write of file 1
write 1 1 1048576 00
# line 21 was refused as toolong: the write ends past the limit of a file
write 1 1 0 62
= wrote 1 1 1 0 62 buffered
flush 1 1
expire 1 1
# line 24 did nothing: no break of the lease of client 1 of file 1 waits
expire 1 2
# line 25 did nothing: there is no file 2
scavenge 1 1
# line 26 did nothing: no open of client 1 of file 1 is kept without a connection
cut 1
= dropped 1
connect 1
# line 28 did nothing: client 1 hasn't noticed that its connection was lost
raw 1 read 1
# line 29 did nothing: client 1 isn't connected
scavenge 1 1
scavenge 1 1
# line 31 did nothing: no open of client 1 of file 1 is kept without a connection
connect 3
# line 32 did nothing: there is no client 3
open 2 1 r rw none
# line 33 was refused as offline: the client isn't connected, or its open isn't connected again yet
connect 2
= joined 2
open 2 1 r rw none
serve 2
= opened 1 2
= sent 2
take 2
= took 2
write 2 1 0 62
# line 38 was refused as denied: the access of the open doesn't allow it
"""


def explained(text: str, *options: str) -> str:
    ended = run(["replay", *options, "--explain", "-"], text.encode())
    assert (ended.status, ended.faults) == (0, b""), text
    return ended.out.decode()


def schedule_by_hand() -> str:
    lines = BY_HAND.splitlines()
    return "".join(f"{it}\n" for it in lines if not it.startswith("=") and not REMARK.fullmatch(f"{it}\n"))


def check(text: str, program: str) -> int:
    """How many events of a schedule did nothing; what is said of them is as it has to be."""
    told = explained(text)
    assert told == explained_record(program, text)
    assert REMARK.sub("", told) == run(["replay", "-"], text.encode()).out.decode()
    messages = run(["replay", "--messages", "-"], text.encode()).out.decode()
    assert REMARK.sub("", explained(text, "--messages")) == messages
    assert REMARK.findall(explained(text, "--messages")) == REMARK.findall(told)
    for record in (told, messages, explained(text, "--messages")):
        assert run(["judge", "-"], record.encode()) == Ended(0, SAFE), text
    dead = set(map(int, REMARK.findall(told)))
    assert dead <= set(event_lines(text))
    without = "".join(f"{it}\n" for number, it in enumerate(text.split("\n")[:-1], 1) if number not in dead)
    assert run(["replay", "--messages", "-"], without.encode()).out.decode() == messages
    assert not REMARK.findall(explained(without))
    return len(dead)


def test_by_hand(program: str) -> None:
    record = "".join(f"{it.removeprefix('= ')}\n" for it in BY_HAND.splitlines()
                     if it.startswith("=") or REMARK.fullmatch(f"{it}\n"))
    assert explained(schedule_by_hand()) == record + "# safe\n"
    assert check(schedule_by_hand(), program) == len(REMARK.findall(BY_HAND))


def test_with_messages_and_rules() -> None:
    lines = explained(schedule_by_hand(), "--messages", "--rules", "by-key,whole").splitlines()
    place = lines.index("# line 17 did nothing: no message to client 1 is on its way")
    assert lines[place + 1] == "opened 1 1" and lines[place + 2].startswith("# sent 1 created 1 1 ")
    assert lines[-2:] == ["# rules by-key,whole", "# safe"]


@pytest.mark.parametrize("path", [EXAMPLE, *SCHEDULES], ids=name_of)
def test_kept_schedule(path: Path, program: str) -> None:
    check(path.read_text(encoding="ascii"), program)


@pytest.mark.parametrize("number", range(20))
def test_random_schedule(number: int, chooser: random.Random, program: str) -> None:
    lines = StrayingSchedule(chooser).text().splitlines()
    first = next(place for place, line in enumerate(lines) if line.startswith("connect"))
    for _ in range(20 + number % 2):
        event = chooser.choice((
            "serve", "take", "cut", "notice", "connect", "expire", "scavenge", "read", "flush", "close"))
        file = f" {chooser.randint(1, 4)}" if event in ("expire", "scavenge", "read", "flush", "close") else ""
        lines.insert(chooser.randint(first, len(lines)), f"{event} {chooser.randint(1, 6)}{file}")
    assert check("".join(f"{it}\n" for it in lines), program)


def test_refused_schedule() -> None:
    text = b"file -\nnonsense\n"
    assert run(["replay", "--explain", "-"], text) == run(["replay", "-"], text)


def test_empty_schedule() -> None:
    assert explained("") == "# safe\n"
