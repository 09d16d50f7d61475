"""Lines of the machines that docs/FORMATS.md doesn't have are refused: numbers are decimal, without sign and leading zeros, and
within their limits, and bytes are two hexadecimal digits each."""
from __future__ import annotations

from collections.abc import Callable

import pytest

from smblease.lines import read_note, read_number, read_out, read_reply, read_request

REFUSED: dict[str, Callable[[str], object]] = {
    "read -1": read_request, "read +1": read_request, "read 1_000": read_request, "read 01": read_request,
    "read  1": read_request, "read ": read_request, "read": read_request, "read 1 ": read_request, "read 1\n": read_request,
    "read \u0661": read_request, "read 0x1": read_request, "read 1.0": read_request, "read 1 2": read_request,
    "write 7 1 0 5": read_request, "write 7 1 0 5 8": read_request, "write 7 1 0 5\t8": read_request,
    "write 7 1 0 0x58": read_request, "write 7 1 0 ": read_request, "write 7 1 -0 58": read_request,
    "create 1 x rw -": read_request, "Read 1": read_request, "": read_request, "createfailed 1 +0000001": read_reply,
    "createfailed 1 0x000001": read_reply, "createfailed 1 1_000000": read_reply, "createfailed 1 c000004": read_reply,
    "createfailed 1 STATUS_NONE": read_reply, "readdone 7 g0": read_reply, "believes 1_0 1 RH": read_note,
    "believes -1 1 RH": read_note, "believes 1 1 HR": read_note, "believes": read_note, "sent 01 closed 7": read_out,
    "sent 1 closed": read_out, "sent": read_out,
    "create 0 r rw -": read_request, "create 256 r rw -": read_request, f"read {2**64}": read_request,
    f"write {2**64} 1 0 58": read_request, f"write 7 {2**64} 0 58": read_request, f"write 7 1 {2**32} 58": read_request,
    "believes 0 1 RH": read_note, "believes 1 256 RH": read_note, f"settled 1 {2**64} done": read_note,
}
TAKEN: dict[str, Callable[[str], object]] = {
    "create 255 r rw -": read_request, f"read {2**64 - 1}": read_request, f"write 7 {2**64 - 1} {2**32 - 1} 58": read_request,
    "believes 255 1 RH": read_note,
}


@pytest.mark.parametrize("line", REFUSED)
def test_line_that_is_refused(line: str) -> None:
    with pytest.raises(ValueError):
        REFUSED[line](line)


@pytest.mark.parametrize("line", TAKEN)
def test_line_at_a_limit(line: str) -> None:
    TAKEN[line](line)


@pytest.mark.parametrize("word", ["0", "1", "10", str(2**64 - 1), str(2**80)])
def test_number(word: str) -> None:
    """How large it may be is for the machine to say."""
    assert str(read_number(word)) == word
