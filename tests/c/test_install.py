"""`make install` and `make uninstall`: what is there, what other programs link, and what is left."""
from __future__ import annotations

import re
import subprocess
from pathlib import Path

import pytest

from tests import needs
from tests.c.building import CC, Ended, pkg_config, run
from tests.c.test_library import ACKNOWLEDGMENT, NOTIFICATION
from tests.paths import TOP


def test_the_installed_program(prefix: Path) -> None:
    assert run(prefix / "bin/leasecheck", "ack", NOTIFICATION) == Ended(0, ACKNOWLEDGMENT)


@needs.program("pkg-config")
@needs.program(CC)
def test_a_program_over_the_installed_library(prefix: Path, tmp_path: Path) -> None:
    flags = pkg_config(prefix, "--cflags", "--libs").output.split()
    assert run(CC, "-o", tmp_path / "ack", "examples/c/ack.c", *flags) == Ended(0, "")
    assert run(tmp_path / "ack", NOTIFICATION, variables={"LD_LIBRARY_PATH": f"{prefix}/lib"}) == Ended(0, ACKNOWLEDGMENT)


@needs.program("pkg-config")
def test_pkg_config_knows_the_version(prefix: Path) -> None:
    header = (TOP / "include/smblease.h").read_text(encoding="utf-8")
    version = ".".join(re.findall(r"^#define SMBLEASE_VERSION_[A-Z]* (\d+)$", header, re.M))
    assert pkg_config(prefix, "--modversion") == Ended(0, f"{version}\n")


@needs.program("pkg-config")
def test_pkg_config_knows_the_prefix(prefix: Path) -> None:
    assert pkg_config(prefix, "--cflags", "--libs").output.rstrip() == f"-I{prefix}/include -L{prefix}/lib -lsmblease"


@needs.program("readelf")
def test_the_name_by_which_programs_find_the_library(prefix: Path) -> None:
    told = run("readelf", "-d", prefix / "lib/libsmblease.so").output
    assert re.findall(r"SONAME.*\[(.*)\]", told) == ["libsmblease.so.0"]


@needs.program("readelf")
def test_no_other_names_are_given_out(prefix: Path) -> None:
    rows = [line.split() for line in run("readelf", "--dyn-syms", "-W", prefix / "lib/libsmblease.so").output.splitlines()]
    names = {row[7] for row in rows if len(row) >= 8 and row[0].rstrip(":").isdigit() and row[6] != "UND"}
    assert "smblease_version" in {name.partition("@")[0] for name in names}
    assert not [name for name in names if not name.startswith(("smblease_", "SMBLEASE_"))]


@needs.program("man")
@pytest.mark.parametrize("page, name", [
    ("leasecheck", "leasecheck - "), ("smblease", "smblease - "), ("smblease_read_create_ask", "smblease_read_create_ask, "),
    ("smblease_find_context", "smblease_read_context, smblease_find_context, "),
    ("smblease_manager_cut", "smblease_manager_join, ")])
def test_man_finds_the_pages(prefix: Path, page: str, name: str) -> None:
    shown = run("man", page, variables={"MANPATH": f"{prefix}/share/man", "MANWIDTH": "100", "LC_ALL": "C.UTF-8"})
    assert shown.status == 0 and name in shown.output


@needs.program("bash")
def test_completion_is_found_by_its_program(prefix: Path) -> None:
    """bash-completion loads the file of a program's name from this folder at its first use."""
    file = prefix / "share/bash-completion/completions/leasecheck"
    assert run("bash", "-c", f". '{file}'; complete -p leasecheck") == Ended(0, "complete -F _leasecheck leasecheck\n")


def test_pages_for_users(prefix: Path) -> None:
    """Each page that the man pages name is there, and what may be passed on."""
    folder = prefix / "share/doc/smblease"
    named = {name for page in (TOP / "man").glob("*/*")
             for name in re.findall(r"docs/([A-Z_]{2,}\.md)", page.read_text(encoding="utf-8")) if name != "NAME.md"}
    assert len(named) > 5 and named <= {it.name for it in folder.iterdir()}
    assert "Nobody may pass this software on" in (folder / "COPYING.md").read_text(encoding="utf-8")
    assert (folder / "examples/c/ack.c").read_bytes() == (TOP / "examples/c/ack.c").read_bytes()


@pytest.mark.parametrize("folder", ["prefix", "a prefix"])
def test_uninstall_leaves_nothing(tmp_path: Path, folder: str) -> None:
    for target in ("install", "uninstall"):
        assert run("make", target, f"PREFIX=/{folder}", f"DESTDIR={tmp_path}/{folder}").status == 0
        files = subprocess.run(["find", tmp_path, "!", "-type", "d"], capture_output=True, text=True, check=True).stdout
        assert bool(files) == (target == "install"), files
    assert not (tmp_path / folder / folder / "share/doc/smblease").exists()
