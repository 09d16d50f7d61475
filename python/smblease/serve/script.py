"""A script of lines of control, one after the other."""
from __future__ import annotations

import logging
from collections import deque
from dataclasses import dataclass
from typing import TYPE_CHECKING

from smblease.drive.faults import DriveFault, Usage
from smblease.serve.control_lines import ControlLines, Deed, Outcome, fault_of, kind_of
from smblease.serve.faults_on_demand import Action, Fault

if TYPE_CHECKING:
    from smblease.serve.server import Server

LOG = logging.getLogger("serve")
COMMENT = "#"


@dataclass
class Line:
    number: int
    text: str
    deed: Deed


class Script:
    """Each line is tried until there is something to do it to, whenever all is quiet; then comes the next one. `wait KIND [C]` is
    done when such a message is sent."""

    def __init__(self, server: Server, path: str) -> None:
        self._server, self._path = server, path
        self._control = ControlLines(server)
        self._is_going = False
        try:
            with open(path, encoding="utf-8") as stream:
                texts = [it.strip() for it in stream]
        except (OSError, UnicodeDecodeError) as fault:
            raise DriveFault(f"{path}: {getattr(fault, 'strerror', None) or 'no text of UTF-8'}") from None
        self._lines = deque(self._read(number, text) for number, text in enumerate(texts, 1)
                            if text and not text.startswith(COMMENT))

    def _read(self, number: int, text: str) -> Line:
        try:
            word, *words = text.split(" ")
            if word == Action.WAIT.value:
                return Line(number, text, self._waiting(fault_of(Action.WAIT, words, kind_of(words[0]))))
            return Line(number, text, self._control.read(text))
        except (ValueError, KeyError, IndexError):
            raise Usage(f"--script {self._path}: line {number} is none: {text}") from None

    def _waiting(self, fault: Fault) -> Deed:
        is_begun = False

        def deed() -> Outcome:
            nonlocal is_begun
            if not is_begun:
                self._server.faults.add(fault)
            is_begun = True
            return Outcome.DONE if fault.is_over else Outcome.NOTHING
        return deed

    def go_on(self) -> None:
        """As far as it goes. What a line does may have it called meanwhile."""
        if self._is_going:
            return
        self._is_going = True
        try:
            while self._lines and self._is_over(self._lines[0]):
                self._lines.popleft()
        finally:
            self._is_going = False

    def _is_over(self, line: Line) -> bool:
        outcome = line.deed()
        if outcome is Outcome.REFUSED:
            LOG.warning("%s: line %d can't be done: %s", self._path, line.number, line.text)
        elif outcome is Outcome.DONE:
            LOG.debug("%s: line %d is done: %s", self._path, line.number, line.text)
        return outcome is not Outcome.NOTHING

    def close(self) -> None:
        if self._lines:
            LOG.warning("%s: it went no further than line %d: %s", self._path, self._lines[0].number, self._lines[0].text)
