"""Of each kind of fault, both lines to the letter: the first is for programs, the second says what was wanted and what stood
there."""
from __future__ import annotations

import pytest

from tests.program.ran import ACKNOWLEDGMENT, BREAK, Ended, run
from tests.program.test_cut_messages import FOREIGN, LEASE

GUID = "00000000-0000-0000-0000-000000000000"
FACTS = ("a kind of fact, which is start, joined, dropped, expired, sent, took, opened, changed, wrote, settled, believes, "
         "cachedread or strayed")
PARTS = ("a kind of line, which is file, client, open, close, read, flush, write, serve, take, cut, notice, connect, expire, "
         "scavenge or raw")


def message(command: int, flags: int) -> str:
    """The header of a message (MS-SMB2 2.2.1): Command stands at 12, Flags at 16."""
    return f"fe534d424000{6 * '00'}{command.to_bytes(2, 'little').hex()}0000{flags.to_bytes(4, 'little').hex()}{44 * '00'}"


# Words, standard input, the first line and the second.
FAULTS = [
    (["ack", "2c0"], "", "fault hex", "HEX: two digits for each byte; there are 3 digits"),
    (["ack", "2c:0g"], "", "fault hex", 'HEX, character 5: a hexadecimal digit; it is "g"'),
    (["ack", '0x2c00"0'], "", "fault hex", 'HEX, character 7: a hexadecimal digit; it is "\\x22"'),
    (["show", "ask", "00"], "", "fault 1 Short at 0", "context 1: fewer than 16 bytes are left for its header"),
    (["show", "ask", FOREIGN + LEASE[:8] + "00000000" + LEASE[16:]], "",
     "fault 4 BadName at 24", "context 2: its name begins below 16 or ends past its end"),
    (["show", "ask", LEASE.replace("00000000", "38000000", 1) + LEASE], "",
     "fault 7 Twice at 56", 'context 2, "RqLs": an earlier context has its name'),
    (["show", "break", BREAK[:86]], "", "fault 1 Short at 0",
     "a lease break notification, whose fixed part has 44 bytes; they end before that"),
    (["show", "break", ACKNOWLEDGMENT + 8 * "00"], "", "fault 2 WrongSize at 0",
     "a lease break notification, of StructureSize 44; this is another of StructureSize 36"),
    (["show", "break", message(18, 1) + ACKNOWLEDGMENT], "", "fault 1 Short at 64",
     "a lease break notification, of StructureSize 44; this is a lease break response of StructureSize 36"),
    (["show", "break", message(18, 1) + "1800" + 22 * "00"], "", "fault 1 Short at 64",
     "a lease break notification, of StructureSize 44; this is an oplock break notification or response of StructureSize 24"),
    (["show", "break", message(18, 0) + "1800" + 42 * "00"], "", "fault 2 WrongSize at 64",
     "a lease break notification, of StructureSize 44; this is an oplock break acknowledgment of StructureSize 24"),
    (["show", "ask", message(5, 1) + "5900" + 86 * "00"], "", "fault 2 WrongSize at 64",
     "a CREATE request, of StructureSize 57; this is a CREATE response of StructureSize 89"),
    (["show", "response", message(16, 0) + "2900" + 38 * "00"], "", "fault 2 WrongSize at 64",
     "a lease break response, of StructureSize 36; this is a QUERY_INFO request of StructureSize 41"),
    (["show", "ack", message(0, 0)[:126]], "", "fault 1 Short at 0",
     "the header of an SMB2 message has 64 bytes; they end before that"),
    (["replay", "-"], 9 * "file -\n", "fault run 1 BadSetup", "at most 8 files; there are 9"),
    (["replay", "-"], "".join(f"client {GUID[:-2]}{n:02}\n" for n in range(17)),
     "fault run 1 BadSetup", "at most 16 clients; there are 17"),
    (["replay", "-"], "".join(f"client {GUID[:-1]}{n}\n" for n in (3, 1, 2, 1, 1)), "fault run 1 BadSetup",
     "no two clients with one GUID; clients 2 and 4 have one"),
    (["replay", "-"], 10_003 * "cut 1\n", "fault run 2 TooMany", "at most 10000 events; there are 10003"),
    (["judge", "-"], "joined 1\n\nbelieves 1 1 HR\n", "fault line 3",
     'line 3, field 4: a state, which is none or letters of RWH in that order; it is "HR"'),
    (["judge", "-"], "joined 1\r\n", "fault line 1",
     'line 1, field 2: a client, which is a number from 1 to 255 without leading zeros; it is "1\\x0d", with the carriage return '
     "of a Windows line end"),
    (["judge", "-"], "joined\t1\n", "fault line 1", f'line 1, field 1: {FACTS}; it is "joined\\x091", with a tab'),
    (["judge", "-"], "\ufeffjoined 1\n", "fault line 1",
     f'line 1, field 1: {FACTS}; it is "\\xef\\xbb\\xbfjoined", with a byte order mark'),
    (["judge", "-"], " joined 1\n", "fault line 1", f"line 1, field 1: {FACTS}; the line begins with a space or is empty"),
    (["judge", "-"], "joined 1 \n", "fault line 1", "line 1, field 3: the line's end; the line ends with a space"),
    (["judge", "-"], "expired 1  1\n", "fault line 1",
     "line 1, field 3: a file, which is a number from 1 to 255 without leading zeros; two spaces stand before it"),
    (["judge", "-"], "joined 1 2\n", "fault line 1", 'line 1, field 3: the line\'s end; it is "2"'),
    (["judge", "-"], "settled 1\n", "fault line 1",
     "line 1, field 3: the number of a write, of at most 64 bits without leading zeros; the line ends before it"),
    (["judge", "-"], "start 1 " + 41 * "x" + "\n", "fault line 1",
     f'line 1, field 3: at most 1048576 bytes, of two hexadecimal digits each, or - for none; it is "{40 * "x"}"...'),
    (["replay", "-"], "opne 1 1 r r none\n", "fault line 1", f'line 1, field 1: {PARTS}; it is "opne"'),
    (["replay", "-"], "open 1 1 r r none durabel\n", "fault line 1",
     'line 1, field 7: the word durable or the line\'s end; it is "durabel"'),
    (["replay", "-"], "raw 1 ask\n", "fault line 1",
     'line 1, field 3: a request, which is create, read, close, write or ack; it is "ask"'),
    (["replay", "-"], "cut 1\n\nfile 61\n", "fault line 3", "line 3: files and clients stand before the first event"),
    (["capture", "-"], "end 1 0.5 1\nend 1\n", "fault line 2",
     "line 2: a frame with the addresses that its connection has, a gap or an end stands here"),
]


@pytest.mark.parametrize(("words", "given", "first", "second"), FAULTS, ids=[f"{it[2]}, {it[3][:50]}" for it in FAULTS])
def test_both_lines(words: list[str], given: str, first: str, second: str) -> None:
    assert run(words, given.encode()) == Ended(1, b"", f"{first}\n{second}\n".encode())
