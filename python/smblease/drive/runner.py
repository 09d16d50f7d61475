"""One run of a schedule: a server, the machines, the driver, and the verdicts of its record."""
from __future__ import annotations

import logging
from collections.abc import Callable, Iterator
from contextlib import closing, contextmanager, nullcontext
from dataclasses import dataclass, field

from smblease.drive.driver import Driver, files_made, files_removed
from smblease.drive.expectation import Difference, Step, first_difference
from smblease.drive.faults import Undrivable
from smblease.drive.kept_servers import KeptServers
from smblease.drive.place import Server
from smblease.drive.records import Order, Record
from smblease.drive.slots import Slots
from smblease.drive.tried import Tried
from smblease.processes import LineClients, Speaker, client_process
from smblease.program import Verdict, judge, replay
from smblease.schedules import Event, EventKind, Schedule
from smblease.values import Rules

LOG = logging.getLogger("drive")
NOTHING, UNEXPECTED = "nothing tried", "unexpected"
# What a test puts between the driver and the machines.
Filter = Callable[[Speaker], Speaker]


@dataclass
class Outcome:
    """What a run has come to."""

    record: Record
    tried: Tried = Tried()
    verdicts: dict[Order, Verdict] = field(default_factory=dict)
    # the events that did something, and what was left out
    applied: list[Event] = field(default_factory=list)
    skipped: list[str] = field(default_factory=list)
    steps: list[Step] = field(default_factory=list)
    # where the record isn't that of the rules which the server claims to keep
    difference: Difference | None = None

    @property
    def counts(self) -> list[int]:
        """How many facts there were after each event."""
        return [it.count for it in self.steps]

    @property
    def verdict(self) -> Verdict:
        """The verdict, with breaks before answers."""
        return self.verdicts[Order.BREAKS_FIRST]

    @property
    def rule(self) -> int | None:
        """The rule that is broken in both orders of messages."""
        rules = {it.rule for it in self.verdicts.values()}
        return rules.pop() if len(rules) == 1 else None

    @property
    def is_charged(self) -> bool:
        """Whether the server broke a rule, or did what the rules that it claims don't have it do."""
        return self.rule is not None or self.difference is not None

    @property
    def is_sure(self) -> bool:
        """Whether the verdict doesn't depend on the order within a step."""
        return len({it.rule for it in self.verdicts.values()}) == 1

    @property
    def words(self) -> str:
        """The verdict: what is charged, else both where they depend on the order, else that nothing was tried, or the verdict."""
        if self.rule is None and self.difference:
            return f"{UNEXPECTED} {self.difference.place}"
        if not self.is_sure:
            return f"unsure: {self.verdict.text}, {Order.BREAKS_LAST.value} {self.verdicts[Order.BREAKS_LAST].text}"
        return NOTHING if self.tried_nothing else self.verdict.text

    @property
    def tried_nothing(self) -> bool:
        """Whether it is safe for want of leases."""
        return self.tried.is_nothing and all(it.is_safe for it in self.verdicts.values())

    def text(self, with_messages: bool = False) -> str:
        """The record as it is kept: with remarks on what it says little by."""
        record = self.record.text_with_messages() if with_messages else self.record.text()
        return record + "".join(f"# {it}\n" for it in self.tried.remarks)


@dataclass(frozen=True)
class Runner:
    """How schedules are run. `server` makes the server of a run, which is ended with it; `expect` are the rules that it claims
    to keep. `stays` is said of a server that was there before: it may be that it can't be driven at all, and its timers of
    durable opens can't be ended."""

    program: str
    server: Callable[[], Server]
    skip: bool = False
    filtered: Filter | None = None
    rules: Rules = Rules()
    expect: Rules | None = None
    stays: bool = False
    slots: Slots | None = None

    def check(self) -> None:
        """What makes every run futile is a fault, which says what is needed. A server that is kept is ended again."""
        with closing(self), self.driving(Schedule((b"abc",), (), ())):
            pass

    def run(self, schedule: Schedule) -> Outcome:
        with self.driving(schedule) as driver:
            outcome = Outcome(driver.record)
            for event in schedule.events:
                self.happens(driver, event, outcome)
        return self.judged(schedule, outcome)

    def happens(self, driver: Driver, event: Event, outcome: Outcome) -> bool:
        """Has an event happen; whether it did anything."""
        try:
            applied = driver.happens(event)
        except Undrivable as fault:
            if not self.skip:
                raise Undrivable(f"{event.text}: {fault}") from None
            outcome.skipped.append(f"{event.text}: {fault}")
            return False
        outcome.steps.append(driver.step(event, applied))
        outcome.tried = driver.tried
        if applied:
            outcome.applied.append(event)
        LOG.debug("%s: %s", event.text, "done" if applied else "nothing")
        return applied

    def judged(self, schedule: Schedule, outcome: Outcome) -> Outcome:
        """What became of a run of this schedule."""
        if self.expect is not None:
            outcome.difference = first_difference(schedule, outcome.steps, outcome.record.facts(), self.expect)
        texts = {order: outcome.record.text(order) for order in Order}
        verdicts = {text: judge(self.program, text) for text in set(texts.values())}
        outcome.verdicts = {order: verdicts[text] for order, text in texts.items()}
        return outcome

    @contextmanager
    def driving(self, schedule: Schedule) -> Iterator[Driver]:
        """A driver of a fresh run, of which nothing is left afterwards."""
        with self.slots.taken() if self.slots else nullcontext(), self._served() as server:
            files_made(schedule, server)
            try:
                with closing(self._clients(schedule)) as clients, \
                        closing(Driver(schedule, server, clients, self._known_opens(schedule))) as driver:
                    yield driver
            finally:
                if server.stays:
                    files_removed(schedule, server)

    @contextmanager
    def _served(self) -> Iterator[Server]:
        """The server of a run, which is given word where that comes to no end."""
        server = self.server()
        try:
            yield server
        except BaseException:
            server.has_failed = True
            raise
        finally:
            server.close()

    def close(self) -> None:
        """Ends a server that is kept for many runs."""
        if isinstance(self.server, KeptServers):
            self.server.close()

    def _known_opens(self, schedule: Schedule) -> int:
        """How many opens there are where the schedule is replayed, by which its raw lines can name them."""
        if all(event.kind is not EventKind.RAW for event in schedule.events):
            return 0
        return sum(fact.startswith("opened ") for fact in replay(self.program, schedule.text, rules=self.rules))

    def _clients(self, schedule: Schedule) -> LineClients:
        speaker: Speaker = client_process(self.program, schedule)
        return LineClients(self.filtered(speaker) if self.filtered else speaker)
