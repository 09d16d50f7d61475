"""Random command lines with what stands on standard input: schedules, records, digits, captures and lines of machines, as they
should be and changed."""
from __future__ import annotations

import random
from dataclasses import dataclass
from pathlib import Path
from typing import Callable

from smblease.drive.random_schedules import Chooser, blind_schedule
from tests.drive.tapped_runs import ACKNOWLEDGES, CLOSES_ANY, CREATES, SEEN_LOSSES, Run, Ways
from tests.drive.taps import SIDES
from tests.paths import RECORDS, TESTS, files_of
from tests.program.ran import ACKNOWLEDGMENT, BREAK

RULES = ("by-client,as-free", "by-client,whole", "by-key,as-free", "by-key,whole")
KINDS = ("ask", "reply", "break", "ack", "response")
CONTEXTS = "0000000010000400000018002000000052714c7300000000000102030405060708090a0b0c0d0e0f07000000000000000000000000000000"
RECONNECT = "0000000010000400000018001000000044486e430000000001000000000000000100000000000000"
MESSAGES = (BREAK, ACKNOWLEDGMENT, CONTEXTS, RECONNECT, "00" * 36)
CONVERSATIONS = files_of(TESTS / "conversations")
WAYS = Ways(losses=SEEN_LOSSES, strays=(ACKNOWLEDGES, CLOSES_ANY, CREATES), late=True, servers=2)
# Of how many inputs one is changed.
CHANGED = 3


@dataclass(frozen=True)
class Input:
    """The words of a command line, and what stands on standard input."""

    words: tuple[str, ...]
    given: bytes = b""


def changed(chance: random.Random, given: bytes) -> bytes:
    """The bytes with some of them changed, left out, twice there or cut."""
    made = bytearray(given)
    for _ in range(chance.randint(1, 4)):
        start = chance.randrange(len(made) + 1)
        end = min(len(made), start + chance.choice((0, 1, 1, 2, 9, 60)))
        twice, any_byte = bytes(made[start:end]) * 2, bytes([chance.randrange(256)])
        made[start:end] = chance.choice((b"", twice, any_byte, b"\n", b" 9", b"-", b"18446744073709551616"))
    return bytes(made)


def sometimes_changed(chance: random.Random, given: bytes) -> bytes:
    return changed(chance, given) if chance.randrange(CHANGED) == 0 else given


def drawn_schedule(chance: random.Random) -> bytes:
    return blind_schedule(Chooser(chance, aims=chance.random() < 0.2)).text.encode()


def replayed(chance: random.Random, given: bytes) -> Input:
    flags = [flag for flag in ("--messages", "--explain") if chance.random() < 0.4]
    rules = ["--rules", chance.choice(RULES)] if chance.random() < 0.7 else []
    return Input(("replay", *flags, *rules, "-"), given)


def schedule(chance: random.Random) -> Input:
    """A schedule that is replayed."""
    return replayed(chance, sometimes_changed(chance, drawn_schedule(chance)))


def picture(chance: random.Random) -> Input:
    """A schedule or a record that is drawn."""
    text = drawn_schedule(chance) if chance.random() < 0.7 else chance.choice(RECORDS).read_bytes()
    return Input(("draw", "-"), sometimes_changed(chance, text))


def record(chance: random.Random) -> Input:
    """A record that is judged."""
    text = chance.choice(RECORDS).read_bytes()
    given = text * chance.choice((1, 1, 2)) if chance.randrange(CHANGED) else changed(chance, text)
    return Input(("judge", *(["--explain"] if chance.random() < 0.5 else []), "-"), given)


def digits(chance: random.Random) -> Input:
    """Digits that are read."""
    text = sometimes_changed(chance, chance.choice(MESSAGES).encode()).decode("latin-1").replace("\0", "0")
    words = ("ack",) if chance.random() < 0.3 else ("show", chance.choice(KINDS))
    return Input((*words, text if text and not text.startswith(("-", "@")) else "00"))


def conversation(chance: random.Random) -> Input:
    """Lines that machines are given at once."""
    path = chance.choice(CONVERSATIONS)
    lines = path.read_text(encoding="ascii").splitlines()
    said = "".join(f"{line.removeprefix('> ')}\n" for line in lines if line.startswith("> "))
    return Input((chance.choice(("client", "server")) if chance.random() < 0.1 else of_machines(path),),
                 sometimes_changed(chance, said.encode()))


def of_machines(path: Path) -> str:
    """The command that a conversation is with."""
    return "server" if path.read_text(encoding="ascii").split("\n", 1)[0].strip().endswith("server") else "client"


def capture(chance: random.Random) -> Input:
    """Lines of a capture that are judged."""
    side = chance.choice(SIDES)
    text = Run(str(chance.random()), WAYS).runs().text(side).encode()
    words = ["--record"] if chance.random() < 0.4 else []
    return Input(("capture", *words, "--at", side, "-"), sometimes_changed(chance, text))


DRAWS: dict[Callable[[random.Random], Input], float] = {
    schedule: 8, picture: 2, record: 4, digits: 8, conversation: 2, capture: 0.4,
}


def drawn(chance: random.Random) -> Input:
    """One of them."""
    return chance.choices(list(DRAWS), list(DRAWS.values()))[0](chance)
