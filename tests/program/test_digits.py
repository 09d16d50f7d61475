"""One more text at each place of an argument of digits: it is read where a separator or 0x may stand, and else `fault hex`."""
from __future__ import annotations

import pytest

from tests.program.ran import ACKNOWLEDGMENT, BREAK, Ended, answered

MORE = (":", " ", "::", ": ", "  ", "\t", "\n", ".", "0x", "0X", "x", "0", "\u0661")


@pytest.mark.parametrize("more", MORE, ids=ascii)
@pytest.mark.parametrize("prefix", ["", "0x"])
def test_more_at_each_place(prefix: str, more: str) -> None:
    for at in range(len(BREAK) + 1):
        is_separator = more in (":", " ") and at % 2 == 0 and 0 < at < len(BREAK)
        fits = is_separator or (more == "0x" and at == 0 and not prefix)
        wanted = Ended(0, f"{ACKNOWLEDGMENT}\n".encode()) if fits else Ended(1, b"", b"fault hex\n")
        assert answered(["ack", prefix + BREAK[:at] + more + BREAK[at:]]) == wanted, at
