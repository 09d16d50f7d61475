"""Fields at their limits and past them, each read or refused as docs/FORMATS.md has it."""
from __future__ import annotations

import pytest

from tests.program.ran import Ended, answered

# Lines of a schedule of one file and two clients, and lines that are none.
EVENTS = (
    "serve 1", "serve 255", "# \x00\rÿ", "#", "", "close 255 255", "flush 1 1", "expire 1 255", "open 1 1 r - none",
    "open 1 1 rw rw RWH durable", "write 1 1 0 -", "write 1 1 4294967295 00", "write 1 1 0 aAbB", "raw 1 read 0",
    "raw 1 read 18446744073709551615", "raw 1 close 18446744073709551615", "raw 1 write 0 0 0 -",
    "raw 1 write 18446744073709551615 18446744073709551615 4294967295 00", "raw 1 create 1 r r -",
    "raw 1 create 255 rw rw 00", "raw 1 ack " + "24" * 36, "# safe",
)
NO_EVENTS = (
    "serve 256", "serve 0", "serve 01", "serve +1", "serve -1", "serve 1 ", " serve 1", "serve  1", "serve\t1", "serve 1\r",
    "serve 1\x00", "\x00", "serve", "serve ", "serve 1 1", "Serve 1", "serve 1.0", "serve 0x1", "serve ١",
    "serve 18446744073709551617", "serve 4294967297", "serve 257", "\r", "close 1 256", "read 1 0", "scavenge 0 1",
    "open 1 1 rw rw RWH durable ", "open 1 1 rw rw RWH Durable", "open 1 1 wr rw RWH", "open 1 1 - rw RWH",
    "open 1 1 rw rw WR", "open 1 1 rw rw rwh", "open 1 1 rw rw", "open 1 1 rw rw -", "open 1 1 rw none R",
    "write 1 1 4294967296 00", "write 1 1 0 0", "write 1 1 0 0g", "write 1 1 00 aa", "write 1 1 0 --", "write 1 1 0",
    "write 1 1 0 0x00", "raw 1 read 18446744073709551616", "raw 1 read", "raw 1 close 99999999999999999999999999",
    "raw 0 close 1", "raw 256 close 1", "raw 1 write 1 18446744073709551616 0 00", "raw 1 write 1 1 4294967296 00",
    "raw 1 write 1 1 0", "raw 1 create 256 r r -", "raw 1 create 0 r r -", "raw 1 create 1 r r", "raw 1 ack " + "24" * 35,
    "raw 1 ack " + "24" * 37, "raw 1 ack -", "raw 1 open 1", "raw 1", "file 61",
    "client 33333333-3333-3333-3333-333333333333", "joined 1",
)
# Lines of a record in which a client joined and a message was sent to it, and file 1 was started with one byte; and lines that
# are none.
FACTS = (
    "joined 255", "took 1", "start 255 -", "start 2 AB", "dropped 9", "expired 1 1", "opened 1 255", "sent 255",
    "strayed 255", "changed 1 1 18446744073709551615 0 -", "changed 1 1 0 4294967295 00", "wrote 1 1 0 1048575 00 buffered",
    "wrote 1 1 18446744073709551615 0 - through", "settled 1 18446744073709551615 lost", "believes 1 1 none",
    "believes 1 1 WH", "cachedread 1 1 -", "# \x00", "",
)
NO_FACTS = (
    "joined 256", "joined 0", "joined 1\r", "joined 1 ", "joined\x00", "took 01", "start 256 -", "start 2 6", "start 2",
    "dropped", "expired 1 256", "opened 0 1", "opened 1", "changed 1 1 18446744073709551616 0 -",
    "changed 1 1 0 4294967296 00", "changed 1 1 0 0", "wrote 1 1 0 0 00 Through",
    "wrote 1 1 18446744073709551616 0 - through", "wrote 1 1 1 0 - buffered through", "settled 1 18446744073709551616 lost",
    "settled 1 1 Done", "settled 1 -1 done", "believes 1 1 HW", "believes 1 1 -", "believes 1 1", "cachedread 1 1 6",
    "cachedread 256 1 -", "cachedread 1 1 - ", "serve 1",
)
GUIDS = (
    "11111111-1111-1111-1111-111111111111", "11111111111111111111111111111111", "{11111111-1111-1111-1111-111111111111}",
    "urn:uuid:11111111-1111-1111-1111-111111111111",
)
NO_GUIDS = (
    "1111111111111111111111111111111", "11111111-1111-1111-1111-11111111111g", "{11111111-1111-1111-1111-111111111111",
    "11111111-1111-1111-1111-111111111111 ", "", "-",
)
SETUP = """file 616263
client 11111111-1111-1111-1111-111111111111
client 22222222-2222-2222-2222-222222222222
connect 1
"""
BEGUN = "start 1 61\njoined 1\nsent 1\n"


def client(number: int) -> str:
    return f"client {number:032x}"


STARTS = b"".join(b"start %d -\n" % number for number in range(1, 9))
BAD_SETUP, TOO_MANY = b"fault run 1 BadSetup\n", b"fault run 2 TooMany\n"
LINES: dict[str, tuple[list[str], Ended]] = {
    "8 files": (["file -"] * 8, Ended(0, STARTS + b"# safe\n")), "9 files": (["file -"] * 9, Ended(1, b"", BAD_SETUP)),
    "16 clients": ([client(it) for it in range(16)], Ended(0, b"# safe\n")),
    "17 clients": ([client(it) for it in range(17)], Ended(1, b"", BAD_SETUP)),
    "a client twice": ([client(1), client(1)], Ended(1, b"", BAD_SETUP)),
    "255 files and clients": (["file -"] * 255 + [client(it) for it in range(255)], Ended(1, b"", BAD_SETUP)),
    "300 files": (["file -"] * 300, Ended(1, b"", BAD_SETUP)),
    "10,000 events": (["connect 1"] * 10_000, Ended(0, b"# safe\n")),
    "10,001 events": (["connect 1"] * 10_001, Ended(1, b"", TOO_MANY)),
    "a million remarks": (["#"] * 1_000_000 + ["connect 1"], Ended(0, b"# safe\n")),
    "a refused line past the limit": (["connect 1"] * 20_000 + ["connect"], Ended(1, b"", b"fault line 20001\n")),
    "a file past its limit": (["file " + "61" * 1_048_577], Ended(1, b"", b"fault line 1\n")),
    "nothing": ([], Ended(0, b"# safe\n")),
}


def answer_to(command: str, begin: str, line: str) -> Ended:
    following = "serve 1\n" if command == "replay" else "sent 1\n"
    return answered([command, "-"], begin.encode() + line.encode("utf-8", "surrogateescape") + b"\n" + following.encode())


@pytest.mark.parametrize(("command", "begin", "line"), [
    *(("replay", SETUP, line) for line in EVENTS), *(("judge", BEGUN, line) for line in FACTS),
    *(("replay", "", f"client {guid}") for guid in GUIDS)])
def test_line(command: str, begin: str, line: str) -> None:
    assert not answer_to(command, begin, line).faults


@pytest.mark.parametrize(("command", "begin", "line"), [
    *(("replay", SETUP, line) for line in NO_EVENTS), *(("judge", BEGUN, line) for line in NO_FACTS),
    *(("replay", "", f"client {guid}") for guid in NO_GUIDS)])
def test_no_line(command: str, begin: str, line: str) -> None:
    number = begin.count("\n") + 1
    assert answer_to(command, begin, line) == Ended(1, b"", b"fault line %d\n" % number)


@pytest.mark.parametrize("name", LINES)
def test_counts(name: str) -> None:
    lines, wanted = LINES[name]
    assert answered(["replay", "-"], "\n".join(lines).encode()) == wanted
