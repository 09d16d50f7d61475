"""What `judge --explain` has to print, worked out from the rules and the record alone, without anything of the program.

For a bad fact that is its line, the lines of the facts that make it bad, the rule, and who was judged. Where two clients can be
named for the first rule either pair will do, and where a fact is malformed in two ways either one.
"""
from __future__ import annotations

import random
from dataclasses import dataclass
from typing import Callable, Optional, Sequence

LIMIT = 1048576
WORDS = ("1", "2", "3", "7", "none", "R", "RW", "RWH", "58", "-", "done", "failed", "buffered", "through", "1048576")
RULES = {
    "1": "rule 1: while one client may cache writes of a file, no other caches anything of it",
    "2": "rule 2: a cached read gives the file as it stood when the message that the client took last was sent",
    "3": "rule 3: a buffered write changes its file before another client opens or changes it",
    "4": "rule 4: a write is settled as done only if it changed its file",
}
# where a fact names its client, if it is about one, and its file
CLIENT = {"opened": 2, "changed": 2, "start": 0}
FILE = {"expired": 2, "opened": 1, "changed": 1, "wrote": 2, "believes": 2, "cachedread": 2}


@dataclass(frozen=True)
class Fact:
    line: int
    words: tuple[str, ...]

    @property
    def kind(self) -> str:
        return self.words[0]

    @property
    def client(self) -> Optional[str]:
        place = CLIENT.get(self.kind, 1)
        return self.words[place] if place else None

    @property
    def file(self) -> Optional[str]:
        return self.words[FILE[self.kind]] if self.kind in FILE else None

    @property
    def number(self) -> str:
        return self.words[3]

    @property
    def offset(self) -> int:
        return int(self.words[4])

    @property
    def data(self) -> bytes:
        return bytes_of(self.words[5])

    def told(self, role: str = "") -> str:
        return f"line {self.line}: {self.in_words()}{role}"

    def in_words(self) -> str:
        kind, *rest = self.words
        one, two = (rest + ["", ""])[:2]
        if kind in ("changed", "wrote"):
            patch = f"{shown(self.data)} at {self.offset}"
            if kind == "changed":
                return f"file {one} is changed by write {self.number} of client {two}: {patch}"
            manner = "buffered" if rest[5] == "buffered" else "sent on"
            return f"client {one} is given write {self.number} of file {two}: {patch}, {manner}"
        sentences: dict[str, Callable[[], str]] = {
            "start": lambda: f"file {one} is started with {shown(bytes_of(two))}", "joined": lambda: f"client {one} joins",
            "dropped": lambda: f"client {one} loses its connection",
            "expired": lambda: f"client {one} lets the timer of a break of file {two} run out",
            "sent": lambda: f"a message is sent to client {one}", "took": lambda: f"client {one} takes a message",
            "opened": lambda: f"file {one} is opened for client {two}",
            "settled": lambda: f"client {one} learns that its write {two} is {rest[2]}",
            "believes": lambda: f"client {one} believes {rest[2]} of file {two}",
            "cachedread": lambda: f"client {one} reads from its cache of file {two}: {shown(bytes_of(rest[2]))}",
            "strayed": lambda: f"client {one} strays",
        }
        return sentences[kind]()


def bytes_of(word: str) -> bytes:
    return b"" if word == "-" else bytes.fromhex(word)


def shown(data: bytes) -> str:
    if len(data) > 64:
        return f"{data[:64].hex()}... ({len(data)} bytes)"
    return data.hex() or "-"


def patched(data: bytes, fact: Fact) -> bytes:
    if not fact.data:
        return data
    data = data.ljust(fact.offset, b"\0")
    return data[:fact.offset] + fact.data + data[fact.offset + len(fact.data):]


class Past:
    """The facts before a place, and what the rules say of them."""

    def __init__(self, facts: Sequence[Fact]) -> None:
        self.facts = facts

    def last(self, *kinds: str, **wanted: str) -> Optional[Fact]:
        return next((it for it in reversed(self.facts)
                     if it.kind in kinds and all(getattr(it, name) == value for name, value in wanted.items())), None)

    def since_joined(self, client: str) -> list[int]:
        joined = [place for place, it in enumerate(self.facts) if it.words == ("joined", client)]
        return list(range(joined[-1] + 1, len(self.facts))) if joined else list(range(len(self.facts)))

    def is_good(self, client: str) -> bool:
        served = self.last("joined", "dropped", "expired", client=client)
        return bool(served and served.kind == "joined") and not self.last("strayed", client=client)

    def messages(self, client: str) -> tuple[list[int], list[int]]:
        """The places since it joined last of the messages that were sent to it, and of those that it took."""
        places = self.since_joined(client)
        return ([it for it in places if self.facts[it].words == ("sent", client)],
                [it for it in places if self.facts[it].words == ("took", client)])

    def unanswered(self, client: str, file: str) -> list[Fact]:
        settled = {it.words[2] for it in self.facts if it.kind == "settled" and it.client == client}
        return [it for it in self.facts if it.kind == "wrote" and it.client ==
            client and it.file == file and it.number not in settled]

    def start(self, file: str) -> Optional[Fact]:
        return next((it for it in reversed(self.facts) if it.kind == "start" and it.words[1] == file), None)


def malformed(fact: Fact, past: Past) -> list[list[str]]:
    """What can be said of a fact that is malformed."""
    ways = []
    if fact.file and not past.start(fact.file):
        ways.append([f"file {fact.file} isn't started before that"])
    if fact.kind == "start" and (before := past.start(fact.words[1])):
        ways.append([before.told(", before that")])
    if fact.kind in ("changed", "wrote") and fact.offset + len(fact.data) > LIMIT:
        ways.append([f"that ends at {fact.offset + len(fact.data)}, and a file holds at most {LIMIT} bytes"])
    if fact.kind == "wrote" and (used := past.last("wrote", client=str(fact.client), number=fact.number)):
        ways.append([used.told(", which has the number")])
    if fact.kind == "took" and fact.client:
        joined = past.last("joined", client=fact.client)
        sent = len(past.messages(fact.client)[0])
        ways.append([joined.told(", for the last time before that"), f"messages sent to it since, all of them taken: {sent}"]
                    if joined else [f"client {fact.client} hasn't joined before that"])
    return ways


def two_caches(fact: Fact, past: Past) -> list[list[str]]:
    after = Past([*past.facts, fact])
    beliefs: dict[tuple[str, str], Fact] = {}
    for it in after.facts:
        if it.kind == "believes":
            beliefs[it.words[1], it.words[2]] = it
    pairs = [(one, two) for (writer, file), one in beliefs.items() for (client, other), two in beliefs.items()
             if writer != client and file == other and after.is_good(writer) and after.is_good(client)]
    return [[*(it.told(", since here") for it in pair if it is not fact), RULES["1"]] for pair in pairs
            if "W" in pair[0].words[3] and pair[1].words[3] != "none"]


def stale_read(fact: Fact, past: Past) -> list[list[str]]:
    client, file = str(fact.client), str(fact.file)
    sent, took = past.messages(client)
    if not took:
        return [[f"client {client} has taken no message since it joined", RULES["2"]]]
    place = sent[len(took) - 1]
    before = Past(past.facts[:place])
    start, changes = past.start(file), [it for it in before.facts if it.kind == "changed" and it.file == file]
    waiting = past.unanswered(client, file)
    data = bytes_of(start.words[2]) if start else b""
    for change in [*changes, *waiting]:
        data = patched(data, change)
    return [[f"it should read {shown(data)}", past.facts[took[-1]].told(", its last before the read"),
             past.facts[place].told(", the one that it takes last"), *([start.told(", as it begins")] if start else []),
             *(it.told(", its last change before that message is sent") for it in changes[-1:]),
             *(it.told(", not answered before the read") for it in waiting), RULES["2"]]]


def late_write(fact: Fact, past: Past) -> list[list[str]]:
    buffered = [place for place, it in enumerate(past.facts) if it.kind == "wrote" and it.words[6] == "buffered"
                and (it.client, it.file, it.number) == (fact.client, fact.file, fact.number)]
    touched = next(it for it in past.facts[buffered[0] + 1:]
                   if it.kind in ("opened", "changed") and it.file == fact.file and it.client != fact.client)
    return [[past.facts[buffered[0]].told(", the write"), touched.told(", before that write changes it"), RULES["3"]]]


def false_done(fact: Fact, past: Past) -> list[list[str]]:
    wrote = past.last("wrote", client=str(fact.client), number=fact.words[2])
    changed = past.last("changed", client=str(fact.client), number=fact.words[2])
    return [[*([wrote.told(", the write")] if wrote else []),
             *([changed.told(", which isn't that write after its line")] if changed else []), RULES["4"]]]


REASONS = {"1": two_caches, "2": stale_read, "3": late_write, "4": false_done}


def counted(count: int, word: str) -> str:
    return f"{count} {word}" if count == 1 else f"{count} {word}s"


def explanations(verdict: Sequence[str], facts: Sequence[Fact]) -> list[list[str]]:
    """The texts that may stand behind a verdict."""
    ways: list[list[str]] = [[]]
    judged = facts
    if verdict[0] != "safe":
        place = int(verdict[1])
        fact, past, judged = facts[place - 1], Past(facts[:place - 1]), facts[:place]
        reasons = malformed(fact, past) if verdict[0] == "malformed" else REASONS[verdict[2]](fact, past)
        ways = [[fact.told(), *reason] for reason in reasons]
    clients = list(dict.fromkeys(it.client for it in judged if it.client))
    behind = [f"judged: {counted(len(judged), 'fact')} of {counted(len(clients), 'client')}"]
    behind += [f"client {it} hasn't joined: its caches and cached reads aren't judged" for it in clients
               if not any(fact.words == ("joined", it) for fact in judged)]
    behind += [
    f"client {it} has strayed, so nothing of it is judged" for it in clients if any(
        fact.words == (
            "strayed",
             it) for fact in judged)]
    return [way + behind for way in ways]


def facts_of(lines: Sequence[str]) -> list[Fact]:
    return [Fact(number, tuple(line.split(" "))) for number, line in enumerate(lines, 1) if line and not line.startswith("#")]


def damaged(chooser: random.Random, lines: list[str]) -> list[str]:
    lines = list(lines)
    for _ in range(chooser.randint(1, 3)):
        place, other = chooser.randrange(len(lines)), chooser.randrange(len(lines))
        kind = chooser.randrange(5)
        if kind == 0:
            del lines[place:place + 1]
        elif kind == 1:
            lines.insert(other, lines[place])
        elif kind == 2:
            lines[place], lines[other] = lines[other], lines[place]
        else:
            words = lines[place].split(" ")
            words[chooser.randrange(len(words))] = chooser.choice(WORDS)
            lines[place] = " ".join(words)
        lines = lines or ["joined 1"]
    return lines
