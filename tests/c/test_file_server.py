"""The example of a file server over a manager of leases: its scripts, and scripts that it refuses."""
from __future__ import annotations

from collections import Counter
from pathlib import Path

import pytest

from tests import needs
from tests.c.building import PROCESSOR, Ended, run
from tests.paths import TESTS, TOP, files_of

SCRIPTS = [pytest.param(it, id=it.stem) for it in files_of(TOP / "examples/c/file_server")]
# What the files of each script hold in the end: their size, and their first bytes.
FILES = {"write_waits": ("notes", 8, b"NEW-text"), "durable_open": ("draft", 9, b"abcdefghi"),
         "break_expires": ("plan", 2, b"v2"), "conflict": ("ledger", 3, b"200"), "large_file": ("image", 5, b"start"),
         "cancelled": ("memo", 3, b"two"), "old_timer": ("log", 2, b"bc")}
WRONG, UNREADABLE, LOST, FAILED = 1, 2, 3, 4
ALL_THAT_FOLLOW = 10 ** 9


def expected(script: Path) -> str:
    return (TESTS / "c/file_server" / script.stem).read_text(encoding="ascii")


def holds(folder: Path, script: Path) -> bool:
    """Whether the folder has the file of the script alone, with its bytes."""
    name, size, first = FILES[script.stem]
    content = (folder / name).read_bytes()
    return [it.name for it in folder.iterdir()] == [name] and len(content) == size and content.startswith(first)


@pytest.mark.parametrize("script", SCRIPTS)
def test_a_script(file_server: Path, tmp_path: Path, script: Path) -> None:
    assert run(file_server, tmp_path, script) == Ended(0, expected(script))
    assert holds(tmp_path, script)


@pytest.mark.skipif(bool(PROCESSOR), reason="valgrind doesn't go with a program that is emulated")
@needs.program("valgrind")
@pytest.mark.parametrize("script", SCRIPTS)
def test_a_script_under_valgrind(plain_file_server: Path, tmp_path: Path, script: Path) -> None:
    words = ("valgrind", "--quiet", "--error-exitcode=99", "--leak-check=full", "--show-leak-kinds=all", "--track-fds=yes")
    done = run(*words, plain_file_server, tmp_path, script)
    assert (done.status, done.output) == (0, expected(script)), done
    assert holds(tmp_path, script)


@pytest.mark.parametrize("script", SCRIPTS)
def test_each_allocation_refused(file_server_with_refusals: Path, tmp_path: Path, script: Path) -> None:
    """Each is refused alone, and with all that follow: the manager is lost, or was never made, and all memory is freed."""
    note, folder, ends = tmp_path / "calls", tmp_path / "files", Counter[int]()
    folder.mkdir()
    assert run(file_server_with_refusals, folder, script, variables={"REFUSED_NOTE": str(note)}) == Ended(0, expected(script))
    calls, held = map(int, note.read_text(encoding="ascii").split())
    assert calls and not held
    for number in range(1, calls + 1):
        for last in (number, ALL_THAT_FOLLOW):
            variables = {"REFUSED_FROM": str(number), "REFUSED_TO": str(last), "REFUSED_NOTE": str(note)}
            done = run(file_server_with_refusals, folder, script, variables=variables)
            ends[done.status] += 1
            assert note.read_text(encoding="ascii").split()[1] == "0", (number, last)
            assert done.status in (LOST, FAILED) and done.errors.startswith("file_server: line "), (number, last, done)
            assert expected(script).startswith(done.output.rpartition("- ")[0]), (number, last, done)
    assert set(ends) == {LOST, FAILED} and ends[FAILED] == 2, ends


@pytest.mark.parametrize("lines, status, last", [
    pytest.param("file a abc\nholds a 3 0 abd\n", WRONG, "wrong a", id="other_bytes"),
    pytest.param("file a abc\nholds a 4 0 abc\n", WRONG, "wrong a", id="another_size"),
    pytest.param("file ../a abc\n", UNREADABLE, "line 1: a name is of lowercase letters, digits, _ and -", id="a_path"),
    pytest.param("file . abc\n", UNREADABLE, "line 1: a name is of lowercase letters, digits, _ and -", id="a_folder"),
    pytest.param(f"file {'a' * 32}\n", UNREADABLE, "line 1: a name is of lowercase letters, digits, _ and -", id="a_long_name"),
    pytest.param("join 1\nfile link\n", FAILED, "line 2: the file can't be opened, read or written", id="a_link"),
    pytest.param("# x\n\nleave 1\n", UNREADABLE, "line 3: no such step", id="another_word"),
    pytest.param("read 1 10 1\n", UNREADABLE, "line 1: no such step", id="too_few_words"),
    pytest.param("join x\n", UNREADABLE, "line 1: a number is missing", id="no_number"),
    pytest.param("join 1\nopen 1 10 a 4 3\n", FAILED, "line 2: there is no memory, or a number stands for nothing",
                 id="an_access"),
    pytest.param(f"file a {'x' * 256}\n", UNREADABLE, "line 1: too many words, or a word that is too long", id="a_long_word"),
    pytest.param("file a 1 2 3 4 5 6 7 8\n", UNREADABLE, "line 1: too many words, or a word that is too long", id="many_words"),
])
def test_a_script_that_ends_otherwise(file_server: Path, tmp_path: Path, lines: str, status: int, last: str) -> None:
    folder, script = tmp_path / "files", tmp_path / "script"
    folder.mkdir()
    (folder / "link").symlink_to(tmp_path / "outside")
    script.write_text(lines, encoding="ascii")
    done = run(file_server, folder, script)
    assert (done.status, (done.output + done.errors).splitlines()[-1].removeprefix("file_server: ")) == (status, last)
    assert sorted(it.name for it in tmp_path.iterdir()) == ["files", "script"]


@pytest.mark.parametrize("words", [[], ["/nowhere", "/nowhere"], [str(TOP), "/nowhere"]], ids=["none", "no_folder", "no_script"])
def test_without_a_script(file_server: Path, words: list[str]) -> None:
    done = run(file_server, *words)
    assert (done.status, done.output) == (UNREADABLE, "")
    assert done.errors.startswith("file_server: line 0: usage: file_server FOLDER SCRIPT")
