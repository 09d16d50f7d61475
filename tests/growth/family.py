"""A family of inputs: one text for each size, and what is wanted of their cost."""
from __future__ import annotations

from dataclasses import dataclass, field
from typing import Callable, Optional

# The largest exponent where cost is wanted to be linear.
LINEAR = 1.25


@dataclass(frozen=True)
class Family:
    """`make(n)` is the input of size n: a record for `judge` or `draw`, a schedule for `replay`, lines for `client`, or a
    capture. Its doc string says what the family shows; `make(0)` is the set-up, whose cost is subtracted. `command` may have
    options behind a space."""

    name: str
    command: str
    make: Callable[[int], str]
    smallest: int
    unit: str
    # The rule that the last fact breaks; none where the record is safe.
    rule: Optional[int] = None
    # Why every input is refused, in the first line on standard error; none where it is answered.
    fault: Optional[str] = None
    # How many lines of the answer begin with these words, as a multiple of n.
    facts: dict[str, int] = field(default_factory=dict)
    # The most instructions for one unit, where that is limited too.
    most_instructions: Optional[int] = None
    # The peak of memory has to rise by fewer bytes than this for one more unit.
    most_memory: Optional[int] = None
    # The largest exponent that is wanted.
    most_exponent: float = LINEAR
    # Why the exponent is above that; empty where it isn't.
    above: str = ""

    def sizes(self, divisor: int) -> list[int]:
        """Four sizes, each twice the one before."""
        return [max(1, self.smallest // divisor) << step for step in range(4)]

    @property
    def status(self) -> int:
        """The exit status that the program has to end with."""
        if self.fault:
            return 1
        return 3 if self.rule else 0

    @property
    def is_spoken(self) -> bool:
        """Whether the input is given line by line, on standard input, and not as a file."""
        return self.command in ("client", "server")

    def check_answer(self, size: int, answer: str, faults: str) -> None:
        """The answer has to be safe or name the family's rule, and has to have the facts of its family. Where the family is
        refused there is none, and where it is spoken no line is."""
        lines = answer.splitlines()
        if self.fault:
            assert not lines and self.fault in faults.splitlines(), (size, faults)
        elif self.is_spoken:
            assert not any(line.startswith("fault ") for line in lines), size
        else:
            self.check_verdict(size, lines[-1] if self.command == "replay" else lines[0])
        self.check_facts(size, lines)

    def check_verdict(self, size: int, verdict: str) -> None:
        if self.rule:
            assert verdict.startswith("unsafe ") and verdict.endswith(f" {self.rule}"), (size, verdict)
        else:
            assert verdict in ("safe", "# safe"), (size, verdict)

    def check_facts(self, size: int, lines: list[str]) -> None:
        for words, times in self.facts.items():
            count = sum(f"{line} ".startswith(f"{words} ") for line in lines)
            assert not size or 0 <= count - times * size <= 1, (words, size, count)
