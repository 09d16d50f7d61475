"""Machines that are given many lines: as many files as a server has, unsent writes, and lines of which each is answered."""
from __future__ import annotations

from tests.program.ran import Ended, run

MOST_FILES = 255
MANY_LINES = 120_000
UNSENT = 6_000
CLIENT = ("files 1", "client 11111111-1111-1111-1111-111111111111", "connect 1", "open 1 1 rw rw RWH")


def given(*lines: str) -> bytes:
    return "".join(f"{line}\n" for line in lines).encode()


def test_a_file_too_many() -> None:
    """It is refused by its number and changes nothing: the server goes on with those before it."""
    ended = run(["server"], given(*["file 61"] * (MOST_FILES + 1), "join 1"))
    assert ended == Ended(0, b"fault line 256\nanswer done\n", b"line 256: at most 255 files stand before the first call\n")


def test_every_line_is_answered() -> None:
    for command, begin, call, answer in (("client", CLIENT[:2], "notice 1", b"answer quiet"),
                                         ("server", ("file 61",), "cut 1", b"answer nothing")):
        ended = run([command], given(*begin, *[call] * MANY_LINES, "none"))
        refused = b"fault line %d" % (len(begin) + MANY_LINES + 1)
        assert ended.status == 0 and ended.out.splitlines() == [answer] * MANY_LINES + [refused], command


def test_many_unsent_writes() -> None:
    """Each is answered at once, and all of them are sent when they are flushed."""
    [asked, *_] = run(["client"], given(*CLIENT)).out.decode().splitlines()[1:]
    assert asked.startswith("request create 1 rw rw ")
    writes = [f"write 1 1 {count} 58" for count in range(UNSENT)]
    # the lease is granted in the text that asks for it
    ended = run(["client"], given(*CLIENT, f"take 1 created 1 7 {asked.split(' ')[-1]}", *writes, "flush 1 1"))
    lines = ended.out.decode().splitlines()
    assert (ended.status, ended.faults) == (0, b"")
    assert sum(line.startswith("wrote 1 1 ") and line.endswith(" buffered") for line in lines) == UNSENT
    assert [line for line in lines if line.startswith("request write 7 ")] == [
        f"request write 7 {count + 1} {count} 58" for count in range(UNSENT)]
