"""A line on a terminal that says how far a command is, and that is gone when it ends."""
from __future__ import annotations

import time
from typing import TextIO

_ERASED = "\r\x1b[K"
# from one text to the next
_SECONDS = 0.2


class Progress:
    """Says nothing where the stream is no terminal, or where there is none."""

    def __init__(self, stream: TextIO | None) -> None:
        self._stream = stream if stream and stream.isatty() else None
        self._due = 0.0

    def says(self, text: str) -> None:
        if self._stream and time.monotonic() >= self._due:
            self._put(f"{_ERASED}{text}")
            self._due = time.monotonic() + _SECONDS

    def ends(self) -> None:
        self._put(_ERASED)
        self._due = 0.0

    def _put(self, text: str) -> None:
        if self._stream:
            self._stream.write(text)
            self._stream.flush()
