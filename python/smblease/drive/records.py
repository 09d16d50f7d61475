"""Records: facts in order, and what is chosen where only each connection's own order was seen."""
from __future__ import annotations

from collections.abc import Sequence
from dataclasses import dataclass
from enum import Enum

from smblease.lines import out_words, reply_words
from smblease.outs import Changed, Opened
from smblease.replies import AcknowledgeDone, AcknowledgeFailed, Break, Closed, CloseFailed, Reply


def applied(change: Changed, content: bytes) -> bytes:
    if not change.data:
        return content
    content = content.ljust(change.offset, b"\0")
    return content[:change.offset] + change.data + content[change.offset + len(change.data):]


class Order(Enum):
    """Which of two messages on different connections comes first within one step."""

    BREAKS_FIRST = "breaks before answers"
    BREAKS_LAST = "breaks after answers"


@dataclass(frozen=True)
class Arrival:
    """A message that came to a client. `place` is that of its request among all, or of a break its client's number. What the
    message shows that the server did stands directly before its `sent`."""

    client: int
    place: int
    reply: Reply
    effect: Opened | Changed | None = None

    def rank(self, order: Order) -> int:
        """Where it stands among the messages of a step: answers to acknowledgments and closes come first."""
        if isinstance(self.reply, (AcknowledgeDone, AcknowledgeFailed, Closed, CloseFailed)):
            return 0
        return 1 if isinstance(self.reply, Break) == (order is Order.BREAKS_FIRST) else 2

    def lines(self) -> list[str]:
        effect = [out_words(self.effect)] if self.effect else []
        return [*effect, f"# sent {self.client} {reply_words(self.reply)}", f"sent {self.client}"]


def in_order(arrivals: Sequence[Arrival], order: Order) -> list[Arrival]:
    """The messages of a step in this order, those of each connection as they came."""
    queues: dict[int, list[Arrival]] = {}
    for arrival in arrivals:
        queues.setdefault(arrival.client, []).append(arrival)
    ordered: list[Arrival] = []
    while queues:
        first = min((queue[0] for queue in queues.values()), key=lambda it: (it.rank(order), it.place, it.client))
        ordered.append(queues[first.client].pop(0))
        if not queues[first.client]:
            del queues[first.client]
    return ordered


class Record:
    """Facts, with remarks that say what is in the messages: a request that was sent, what `sent` and `took` are about."""

    def __init__(self) -> None:
        self._items: list[str | tuple[Arrival, ...]] = []
        # how many facts there are
        self.count = 0

    def fact(self, text: str) -> None:
        self._items.append(text)
        self.count += 1

    def remark(self, text: str) -> None:
        self._items.append(f"# {text}")

    def step(self, arrivals: Sequence[Arrival]) -> None:
        if arrivals:
            self._items.append(tuple(arrivals))
            self.count += sum(2 if arrival.effect else 1 for arrival in arrivals)

    def count_of(self, word: str) -> int:
        """How many facts that aren't messages begin with this word."""
        return sum(isinstance(it, str) and it.startswith(f"{word} ") for it in self._items)

    def lines(self, order: Order = Order.BREAKS_FIRST) -> list[str]:
        lines: list[str] = []
        for item in self._items:
            if isinstance(item, str):
                lines.append(item)
            else:
                for arrival in in_order(item, order):
                    lines += arrival.lines()
        return lines

    def facts(self, order: Order = Order.BREAKS_FIRST) -> list[str]:
        return [it for it in self.lines(order) if not it.startswith("#")]

    def text(self, order: Order = Order.BREAKS_FIRST) -> str:
        return "".join(f"{it}\n" for it in self.facts(order))

    def text_with_messages(self) -> str:
        return "".join(f"{it}\n" for it in self.lines())


def by_client(facts: Sequence[str]) -> dict[str, list[str]]:
    """The facts of each client, in their order. Timers are ended by whoever drives, in an order of their own."""
    found: dict[str, list[str]] = {}
    for fact in facts:
        words = fact.split(" ", 3)
        whose = words[0] if words[0] == "expired" else words[2 if words[0] in ("opened", "changed") else 1]
        found.setdefault(whose, []).append(fact)
    return found
