"""`make install-python`: the package below a prefix, as `make install` puts the library there."""
from __future__ import annotations

import sys
import sysconfig
from pathlib import Path

import pytest

from tests.c.building import Ended, made, run
from tests.install.making import MARKS
from tests.program.ran import ACKNOWLEDGMENT, BREAK
from tests.program.test_version import PROGRAM_SAYS, commit_line, said_by

pytestmark = [*MARKS, pytest.mark.xdist_group("installed")]
OWN = f"lib/python{sys.version_info.major}.{sys.version_info.minor}"
PYTHON = f"PYTHON={sys.executable}"


@pytest.mark.parametrize("prefix, packages", [
    pytest.param("home/.local", f"{OWN}/site-packages", id="home"),
    pytest.param("usr/local", f"{OWN}/dist-packages" if "posix_local" in sysconfig.get_scheme_names() else f"{OWN}/site-packages",
                 id="usr_local"),
])
def test_all_is_there_and_goes_again(tmp_path: Path, prefix: str, packages: str) -> None:
    """In the folder that Python looks into below ~/.local and /usr/local; pip and the loader need nothing to be set there."""
    assert made().status == 0, made()
    words = (f"PREFIX=/{prefix}", f"DESTDIR={tmp_path}", PYTHON)
    done = run("make", "install-python", *words)
    assert done.status == 0, done
    top = tmp_path / prefix
    variables = {"PYTHONPATH": str(top / packages)}
    assert run(top / "bin/smblease-serve", "--version", variables=variables) == Ended(0, said_by("smblease-serve"))
    program = "from smblease.program import find_program; print(find_program())"
    found = run(sys.executable, "-c", program, variables=variables).output.rstrip()
    assert found == str(top / "bin/leasecheck")
    assert run(found, "ack", BREAK) == Ended(0, f"{ACKNOWLEDGMENT}\n")
    assert run(found, "--version") == Ended(0, PROGRAM_SAYS + commit_line())
    assert (top / "share/man/man1/smblease-run.1").exists() and (top / "share/bash-completion/completions/smblease-run").exists()
    assert run("make", "uninstall", *words).status == 0
    assert [it for it in tmp_path.rglob("*") if not it.is_dir()] == []
    assert not (top / packages / "smblease").exists()


def test_without_it_python_is_left_alone(tmp_path: Path) -> None:
    assert run("make", "install", "PREFIX=/p", f"DESTDIR={tmp_path}").status == 0
    assert not list((tmp_path / "p/lib").glob("python*"))


@pytest.mark.parametrize("words", [[], ["relative", ""], ["/p"], ["--remove", "/p"]])
def test_other_words_are_refused(words: list[str]) -> None:
    assert run("tools/install_python", *words) == Ended(2, "", "usage: tools/install_python [--remove] PREFIX DESTDIR\n")
