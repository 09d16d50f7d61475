"""Random schedules on a server, each of which is drawn, driven, compared with the profile, and shrunk where it is charged."""
from __future__ import annotations

import logging
import os
from collections.abc import Callable

from smblease.drive.drawing import Drawn, drawn, own_seed
from smblease.drive.explanations import NONE, Likeness, Run, facts_of, likeness_of
from smblease.drive.explored import Row
from smblease.drive.model import Departure
from smblease.drive.runner import Outcome, Runner
from smblease.drive.shrinking import shrunk
from smblease.drive.tried import Tried
from smblease.faults import ToolFault
from smblease.program import judge
from smblease.schedules import Event, Schedule

LOG = logging.getLogger("drive")


class Explorer:
    """Draws schedules by a seed and their numbers, and drives them."""

    def __init__(self, runner: Runner, seed: int, folder: str, shrinks: bool, allowed: frozenset[Departure] = NONE,
                 keeps_all: bool = False) -> None:
        """What is unsafe by departures of `allowed` doesn't count, and isn't shrunk. `keeps_all`: safe ones are kept too."""
        self._allowed = allowed
        self._runner = runner
        self._seed = seed
        self._folder = folder
        self._shrinks = shrinks
        self._keeps_all = keeps_all

    def check(self) -> None:
        """What makes every schedule futile is a fault."""
        self._runner.check()

    def close(self) -> None:
        """Ends a server that is kept for its schedules."""
        self._runner.close()

    def explore(self, number: int) -> Row:
        """Drives the schedule of a number, which draws by itself, and keeps it where it is charged."""
        chosen = drawn(self._seed, number, not self._runner.stays)
        try:
            schedule, outcome = self._driven(chosen)
        except ToolFault as fault:
            return Row(number, own_seed(self._seed, number), chosen.manner, 0, 0, Tried(), f"fault {fault}", "-")
        likeness = self._likeness(schedule, outcome)
        if self._keeps_all or likeness.is_open or not outcome.verdict.is_safe:
            self._keep(f"{number}", schedule, outcome)
        is_allowed = outcome.rule is not None and self._is_allowed(self._run(schedule, outcome), likeness)
        left = None
        if outcome.is_charged and self._shrinks and not is_allowed:
            left = self._shrunk(number, schedule.with_events(tuple(outcome.applied)), outcome)
        return Row(number, own_seed(self._seed, number), chosen.manner, len(schedule.events), len(outcome.applied), outcome.tried,
                   outcome.words, likeness.word, left, is_allowed)

    def _likeness(self, schedule: Schedule, outcome: Outcome) -> Likeness:
        """Where rules are expected nothing explains what departs from them."""
        if self._runner.expect is not None:
            return Likeness(None if outcome.difference else NONE)
        return likeness_of(self._runner.program, self._run(schedule, outcome), outcome.record.facts(), outcome.counts,
                           self._runner.rules)

    def _run(self, schedule: Schedule, outcome: Outcome) -> Run:
        return Run.waited(schedule, outcome.steps) if self._runner.stays else Run(schedule)

    def _is_allowed(self, run: Run, likeness: Likeness) -> bool:
        """Whether the model server is safe with the departures of an unsafe record but for the allowed ones."""
        others = (likeness.departures or NONE) - self._allowed
        if others == (likeness.departures or NONE):
            return False
        facts = facts_of(run, others)
        return judge(self._runner.program, "".join(f"{it}\n" for it in facts)).is_safe

    def _driven(self, chosen: Drawn) -> tuple[Schedule, Outcome]:
        events: list[Event] = []
        with self._runner.driving(chosen.setup) as driver:
            outcome = Outcome(driver.record)
            for event in chosen.events(driver):
                events.append(event)
                self._runner.happens(driver, event, outcome)
        schedule = chosen.setup.with_events(tuple(events))
        return schedule, self._runner.judged(schedule, outcome)

    def _shrunk(self, number: int, schedule: Schedule, charged: Outcome) -> int:
        """Writes down what is left of a charged schedule, and its record; answers how many events those are."""
        least = shrunk(schedule, stays_charged(self._runner, charged), f"schedule {number}")
        try:
            self._keep(f"{number}.shrunk", least, self._runner.run(least))
        except ToolFault as fault:
            LOG.warning("%d has no record of what is left: %s", number, fault)
        return len(least.events)

    def _keep(self, name: str, schedule: Schedule, outcome: Outcome) -> None:
        self._write(f"{name}.schedule", schedule.text)
        self._write(f"{name}.record", outcome.text(with_messages=True))
        if outcome.difference:
            self._write(f"{name}.difference", f"{outcome.difference.text}\n")

    def _write(self, name: str, text: str) -> None:
        with open(os.path.join(self._folder, name), "w", encoding="utf-8") as stream:
            stream.write(text)


def stays_charged(runner: Runner, charged: Outcome) -> Callable[[Schedule], bool]:
    """Whether a schedule is charged likewise twice in a row (a server may be racy): it breaks the same rule, or isn't as
    expected."""
    def is_likewise(outcome: Outcome) -> bool:
        return outcome.rule == charged.rule if charged.rule is not None else outcome.difference is not None

    def stays(schedule: Schedule) -> bool:
        try:
            return all(is_likewise(runner.run(schedule)) for _ in range(2))
        except ToolFault:
            return False
    return stays
