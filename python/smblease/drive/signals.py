"""Signals that end what goes on, also where a package passes over the exception that they raise."""
from __future__ import annotations

import signal
from types import FrameType, TracebackType


class Noted:
    """While it is entered a signal raises KeyboardInterrupt, and is noted: impacket has `except` clauses that take anything."""

    def __init__(self, number: int) -> None:
        self.came = False
        self._number = number
        self._before = signal.getsignal(number)

    def __enter__(self) -> Noted:
        signal.signal(self._number, self._comes)
        return self

    def __exit__(self, kind: type[BaseException] | None, fault: BaseException | None, trace: TracebackType | None) -> None:
        signal.signal(self._number, self._before)

    def _comes(self, _: int, __: FrameType | None) -> None:
        self.came = True
        raise KeyboardInterrupt
