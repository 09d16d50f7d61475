"""Each call of read and write fails in turn, each later one with it, or is interrupted once; calls that move one byte; and
records of several blocks."""
from __future__ import annotations

import subprocess
import tempfile
from pathlib import Path

import pytest

from tests.paths import TESTS, built_program
from tests.program.ran import BREAK, SAFE, Ended, answered, run, unread
from tests.shims import shim

# How many bytes of a record gather before they are written, and are read at once.
BLOCK = 65_536
# An environment of no variables.
EMPTY: dict[str, str] = {}
WRITTEN = b"fault output\n"


def on_file(command: str, path: Path) -> tuple[list[str], tuple[bytes, ...]]:
    """A command that reads a file, and how it may fail."""
    return [*command.split(), str(path)], (unread(path).faults, WRITTEN)


SHORT: dict[str, tuple[list[str], tuple[bytes, ...]]] = {
    "help": (["--help"], (WRITTEN,)), "judge --help": (["judge", "--help"], (WRITTEN,)),
    "show": (["show", "ask", ""], (WRITTEN,)), "ack": (["ack", BREAK + "aa"], (WRITTEN,)),
    **{f"replay {name}": on_file("replay", TESTS / "schedules" / name) for name in ("break_answered", "raw_requests")},
    **{f"{command} {name}": on_file(command, TESTS / "records" / name)
       for command in ("judge", "judge --explain", "judge --json", "draw")
       for name in ("every_fact_safe", "two_caches_one_writes", "taken_without_a_message")},
    "draw break_answered": on_file("draw", TESTS / "schedules" / "break_answered"),
    "replay --explain raw_requests": on_file("replay --explain", TESTS / "schedules" / "raw_requests"),
    "replay --json break_answered": on_file("replay --json", TESTS / "schedules" / "break_answered"),
    **{f"{command} two_caches": on_file(command, TESTS / "captures" / "two_caches")
       for command in ("capture", "capture --json", "capture --record --json")},
}
# Machines, and lines that they answer, one of them with a reason on standard error.
MACHINES = {
    "client": (b"files 2\nclient 1 11111111-1111-1111-1111-111111111111\n"
               b"connect 1\nopen 1 1 rw rw RWH durable\nopen 1\nnotice 1\n"),
    "server": b"file 6162\njoin 1\nreceive 1 create 1 rw rw -\nreceive 1\nreceive 1 read 1\n",
}


@pytest.mark.parametrize("name", SHORT)
def test_each_call_fails(name: str) -> None:
    words, faults = SHORT[name]
    whole, env = run(words), {"LD_PRELOAD": shim("streams")}
    for call in range(1, 100):
        ended = run(words, env={**env, "FAILING_CALL": str(call)})
        if ended == whole:
            return
        assert ended[:2] == (1, b"") and ended.faults in faults, (call, ended)
    pytest.fail("it never ends as it does where no call fails")


@pytest.mark.parametrize("more", ["0", "1", "5"])
@pytest.mark.parametrize("name", SHORT)
def test_each_call_is_interrupted(name: str, more: str) -> None:
    """It is made again, however often in a row, and nothing is lost."""
    words, _ = SHORT[name]
    whole, env = run(words), {"LD_PRELOAD": shim("streams"), "INTERRUPTIONS": more}
    assert [call for call in range(1, 20) if run(words, env={**env, "INTERRUPTED_CALL": str(call)}) != whole] == []


@pytest.mark.parametrize("name", MACHINES)
def test_calls_of_machines(name: str) -> None:
    """What a machine answered before a call failed has gone out, and the fault names which call it was."""
    given, env = MACHINES[name], {"LD_PRELOAD": shim("streams")}
    whole, kinds = run([name], given), set()
    assert whole.status == 0 and whole.out
    for call in range(1, 100):
        assert run([name], given, {**env, "INTERRUPTED_CALL": str(call), "INTERRUPTIONS": "2"}) == whole, call
        ended = run([name], given, {**env, "FAILING_CALL": str(call)})
        if ended == whole:
            break
        fault = [it for it in ended.faults.splitlines(keepends=True) if it.startswith(b"fault ")]
        assert ended.status == 1 and whole.out.startswith(ended.out) and fault in ([b"fault file\n"], [WRITTEN]), (call, ended)
        kinds.add(fault[0])
    assert kinds == {b"fault file\n", WRITTEN}


@pytest.mark.long
@pytest.mark.parametrize("name", [it for it in SHORT if not it.startswith("draw")])
def test_each_call_of_single_bytes_fails(name: str) -> None:
    """Of what is written byte by byte a part has gone out."""
    words, faults = SHORT[name]
    whole, env = run(words), {"LD_PRELOAD": shim("streams"), "ONE_BYTE": "1"}
    assert run(words, env=env) == whole
    for call in range(1, 20_000):
        ended = run(words, env={**env, "FAILING_CALL": str(call)})
        if ended == whole:
            return
        assert ended.status == 1 and ended.faults in faults and whole.out.startswith(ended.out), (call, ended)
    pytest.fail("it never ends as it does where no call fails")


def test_failing_reads_of_a_record_of_several_blocks(tmp_path: Path) -> None:
    """Some blocks end within a line: facts and remarks have many lengths."""
    lines = ["start 1 616263", "joined 1"]
    lines += [f"# {'x' * (count % 97)}" if count % 3 else "sent 1" for count in range(9_000)]
    record = tmp_path / "blocks"
    record.write_text("\n".join(lines) + "\n", encoding="ascii")
    safe, reads = Ended(0, SAFE), 0
    for call in range(1, 100):
        ended = run(["judge", record], env={"LD_PRELOAD": shim("streams"), "FAILING_CALL": str(call)})
        assert ended in (safe, unread(record), Ended(1, b"", WRITTEN)), call
        reads += ended == unread(record)
        if ended == safe:
            break
    assert reads >= record.stat().st_size // BLOCK


@pytest.fixture
def long_schedule(tmp_path: Path) -> Path:
    """A schedule whose record has some 340 KB: a client writes into a file of 4 KiB and reads it from its cache, 40 times."""
    lines = ["file " + "61" * 4_096, "client 11111111-1111-1111-1111-111111111111", "connect 1", "open 1 1 rw rw RWH", "serve 1",
             "take 1", "read 1 1", "serve 1", "take 1"]
    for turn in range(40):
        lines += [f"write 1 1 {turn} {turn:02x}", "read 1 1"]
    path = tmp_path / "long"
    path.write_text("\n".join(lines) + "\n", encoding="ascii")
    return path


REPLAYS = pytest.mark.parametrize("task", [["replay"], ["replay", "--messages"]], ids=" ".join)


@REPLAYS
def test_long_record(long_schedule: Path, task: list[str]) -> None:
    whole = run([*task, long_schedule])
    assert (whole.status, whole.faults) == (0, b"") and len(whole.out) > 4 * BLOCK and whole.out.endswith(b"# safe\n")
    assert answered(["judge", "-"], whole.out) == Ended(0, SAFE)
    assert run([*task, long_schedule], env={"LD_PRELOAD": shim("streams"), "ONE_BYTE": "1"}) == whole


@REPLAYS
def test_failing_writes_of_a_long_record(long_schedule: Path, task: list[str]) -> None:
    """What went out is a beginning of it."""
    words = [*task, str(long_schedule)]
    whole, cut = run(words), 0
    for call in range(1, 100):
        ended = run(words, env={"LD_PRELOAD": shim("streams"), "FAILING_CALL": str(call)})
        if ended == whole:
            break
        assert ended in (unread(long_schedule), Ended(1, whole.out[:len(ended.out)], WRITTEN)), call
        cut += len(ended.out) >= BLOCK
    assert cut >= 4


@REPLAYS
@pytest.mark.parametrize("room", [0, 1, BLOCK - 1, BLOCK, 100_000, -1])
def test_disk_with_room_for_so_many_bytes(long_schedule: Path, task: list[str], room: int) -> None:
    """-1 is a byte less than is needed. The signal that a file is too large stays ignored, as Python has it."""
    words = [*task, str(long_schedule)]
    whole = run(words).out
    room %= len(whole)
    with tempfile.TemporaryFile() as disk:
        ended = subprocess.run(["prlimit", f"--fsize={room}", built_program(), *words], env=EMPTY, stdout=disk,
                               stderr=subprocess.PIPE, restore_signals=False, check=False)
        disk.seek(0)
        assert (ended.returncode, ended.stderr) == (1, WRITTEN)
        assert disk.read() == whole[:room]


@REPLAYS
def test_full_disk(long_schedule: Path, task: list[str]) -> None:
    with open("/dev/full", "wb") as full:
        ended = subprocess.run([built_program(), *task, long_schedule], env=EMPTY, stdout=full, stderr=subprocess.PIPE,
                               check=False)
    assert (ended.returncode, ended.stderr) == (1, WRITTEN)


@REPLAYS
@pytest.mark.parametrize("count", [1, BLOCK, 2 * BLOCK + 1])
def test_reader_that_goes_away(long_schedule: Path, task: list[str], count: int) -> None:
    """More of the record is left than a pipe holds."""
    words = [built_program(), *task, str(long_schedule)]
    whole = run(words[1:]).out
    with subprocess.Popen(words, env=EMPTY, stdout=subprocess.PIPE, stderr=subprocess.PIPE) as process:
        assert process.stdout and process.stderr
        out = process.stdout.read(count)
        process.stdout.close()
        faults = process.stderr.read()
    assert (process.returncode, out, faults) == (1, whole[:count], WRITTEN)
