"""Files that can't be read, pipes, and standard streams that are closed or full."""
from __future__ import annotations

import os
import shutil
import subprocess
import tempfile
import threading
from pathlib import Path
from typing import Optional

import pytest

from tests import needs
from tests.paths import built_program
from tests.program.ran import SAFE, Ended, answered, run, unread

NOBODY = 65534
LAST = {"replay": b"# safe\n", "judge": b"safe\n"}
TEXT = b"# " + b"x" * 200_000 + b"\n"
OUTPUT = Ended(1, b"", b"fault output\n")
MISSING, FOLDER = "there is no such file", "it is a folder"
COMMANDS = pytest.mark.parametrize("command", LAST)


@COMMANDS
@pytest.mark.parametrize(("path", "why"), [
    ("", MISSING), ("/", FOLDER), ("a" * 5000, "its name is too long"), (".", FOLDER), ("/nosuch", MISSING),
], ids=["no name", "the root", "a long name", "a folder", "none"])
def test_no_file(command: str, path: str, why: str) -> None:
    assert run([command, path]) == unread(path, why)


def test_name_that_is_quoted() -> None:
    name = 'no "file"\n\u00e9\\'
    assert run(["judge", name]) == unread(r"no \x22file\x22\x0a\xc3\xa9\x5c", MISSING)


@pytest.mark.parametrize("name", [" judged", "judged ", "-x", "--", "@judged"])
def test_names_are_taken_as_they_are(name: str, tmp_path: Path) -> None:
    """The file next to it, whose name is nearly the same, isn't the one that is read."""
    for path, text in ((tmp_path / "judged", b"took 1\n"), (tmp_path / name, b"")):
        path.write_bytes(text)
    assert run(["judge", tmp_path / name]) == Ended(0, SAFE)
    assert run(["judge", tmp_path / "judged"]).status == 1


def test_an_argument_that_is_no_text() -> None:
    had = subprocess.run([built_program(), "judge", b"\xff"], capture_output=True, timeout=120, check=False)
    assert (had.returncode, had.stdout) == (2, b"")
    assert had.stderr == b"error: an argument is no text, or there is no memory for it\n"


@COMMANDS
def test_missing_file(command: str, tmp_path: Path) -> None:
    there = tmp_path / "there"
    there.write_bytes(b"start 1 61\n")
    assert run([command, tmp_path / "none"]) == unread(tmp_path / "none", MISSING)
    assert run([command, there / "below"]) == unread(there / "below", "its path leads through something that is no folder")
    circle = tmp_path / "circle"
    circle.symlink_to(circle)
    assert run([command, circle]) == unread(circle, "its path leads through too many symbolic links")


@needs.ROOT
@COMMANDS
def test_file_without_the_right_to_read_it(command: str) -> None:
    with tempfile.TemporaryDirectory() as folder:
        program, closed = Path(folder, "leasecheck"), Path(folder, "closed")
        shutil.copyfile(built_program(), program)
        closed.write_bytes(b"start 1 61\njoined 1\n")
        for path, mode in ((Path(folder), 0o755), (program, 0o755), (closed, 0)):
            path.chmod(mode)
        ended = subprocess.run([program, command, closed], capture_output=True,
                               user=NOBODY, group=NOBODY, extra_groups=[], check=False)
    assert Ended(ended.returncode, ended.stdout, ended.stderr) == unread(closed, "there is no right to read it")


@COMMANDS
@pytest.mark.parametrize("path", ["-", "/dev/stdin"])
def test_standard_input_that_is_a_pipe(command: str, path: str) -> None:
    assert answered([command, path], TEXT) == Ended(0, LAST[command])


@COMMANDS
def test_dev_null(command: str) -> None:
    assert answered([command, "/dev/null"]) == Ended(0, LAST[command])


@COMMANDS
def test_named_pipe(command: str, tmp_path: Path) -> None:
    pipe = tmp_path / "pipe"
    os.mkfifo(pipe)
    writer = threading.Thread(target=pipe.write_bytes, args=(TEXT,))
    writer.start()
    assert answered([command, pipe]) == Ended(0, LAST[command])
    writer.join()


@COMMANDS
@pytest.mark.parametrize(("redirected", "fault"), [("<&-", unread("-")), (">&-", OUTPUT), (">/dev/full", OUTPUT), ("2>&-", None)])
def test_stream_that_is_closed_or_full(command: str, redirected: str, fault: Optional[Ended]) -> None:
    words = ["sh", "-c", f'exec "$0" "$@" {redirected}', built_program(), command, "-"]
    ended = subprocess.run(words, input=b"", capture_output=True, check=False)
    assert Ended(ended.returncode, ended.stdout, ended.stderr) == (fault or Ended(0, LAST[command]))


def test_pipe_whose_reader_is_gone() -> None:
    there, here = os.pipe()
    os.close(there)
    ended = subprocess.run([built_program(), "show", "ask", ""], stdout=here, stderr=subprocess.PIPE, check=False)
    os.close(here)
    assert (ended.returncode, ended.stderr) == (1, b"fault output\n")


@pytest.mark.parametrize(("words", "status"), [(["ack", "0"], 1), ([], 2), (["judge", "no/such/file"], 1)], ids=str)
def test_standard_error_that_is_full(words: list[str], status: int) -> None:
    with open("/dev/full", "wb") as full:
        ended = subprocess.run([built_program(), *words], stdout=subprocess.PIPE, stderr=full, check=False)
    assert (ended.returncode, ended.stdout) == (status, b"")
