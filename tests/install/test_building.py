"""Programs that are built over what `make install` installed, as their authors build them: by CMake and by pkg-config."""
from __future__ import annotations

import shutil
from pathlib import Path

import pytest

from tests import needs
from tests.c.building import CC, Ended, made, pkg_config, replayed, run
from tests.paths import EXAMPLE, TOP
from tests.program.ran import ACKNOWLEDGMENT, BREAK
from tests.program.test_version import VERSION

pytestmark = [needs.program(CC), needs.program("cmake"), pytest.mark.xdist_group("installed_library")]
EXAMPLES = TOP / "examples" / "c"
PROJECT = "cmake_minimum_required(VERSION 3.13)\nproject(found NONE)\n"


@pytest.fixture(scope="module", name="prefix")
def installed_below(tmp_path_factory: pytest.TempPathFactory) -> Path:
    assert made().status == 0, made()
    folder = tmp_path_factory.mktemp("prefix") / "a prefix"
    done = run("make", "install", f"PREFIX={folder}")
    assert done.status == 0, done
    return folder


def build(source: Path, prefix: Path, folder: Path) -> Path:
    """What CMake makes of a project."""
    done = run("cmake", "-S", source, "-B", folder, f"-DCMAKE_PREFIX_PATH={prefix}")
    assert done.status == 0, done
    done = run("cmake", "--build", folder)
    assert done.status == 0, done
    return folder


@pytest.fixture(scope="module", name="built")
def built_by_cmake(tmp_path_factory: pytest.TempPathFactory, prefix: Path) -> Path:
    return build(EXAMPLES, prefix, tmp_path_factory.mktemp("cmake"))


@pytest.mark.parametrize("name", ["ack", "ack_static"])
def test_one_message(built: Path, name: str) -> None:
    assert run(built / name, BREAK) == Ended(0, f"{ACKNOWLEDGMENT}\n")


def test_a_schedule(built: Path) -> None:
    assert run(built / "shared", EXAMPLE) == Ended(0, replayed(EXAMPLE))


@needs.program("readelf")
def test_the_kinds_of_libraries(built: Path) -> None:
    shared, static = (run("readelf", "-d", built / it).output for it in ("ack", "ack_static"))
    assert "Shared library: [libsmblease.so.0]" in shared and "libsmblease" not in static


def test_what_was_installed_may_be_moved(prefix: Path, tmp_path: Path) -> None:
    shutil.copytree(prefix, tmp_path / "moved", symlinks=True)
    built = build(tmp_path / "moved/share/doc/smblease/examples/c", tmp_path / "moved", tmp_path / "built")
    assert run(built / "ack", BREAK) == Ended(0, f"{ACKNOWLEDGMENT}\n")
    assert str(prefix) not in (built / "CMakeFiles/ack.dir/link.txt").read_text(encoding="utf-8")


def test_headers_elsewhere(tmp_path: Path) -> None:
    """Where neither folder is the usual one, as Debian has them, and all stands below DESTDIR."""
    places = ("PREFIX=/usr", "LIBDIR=/usr/lib/x86_64-linux-gnu", "INCLUDEDIR=/usr/include/smblease", f"DESTDIR={tmp_path}")
    assert run("make", "install", *places).status == 0
    built = build(EXAMPLES, tmp_path / "usr", tmp_path / "built")
    assert run(built / "ack", BREAK) == Ended(0, f"{ACKNOWLEDGMENT}\n")
    assert run("make", "uninstall", *places).status == 0
    assert not list((tmp_path / "usr").rglob("*smblease*.*"))


@pytest.mark.parametrize("words, is_found", [
    ("", True), (VERSION, True), ("0.2", True), (f"{VERSION} EXACT", True), ("0.2...0.9", True), ("0.2 EXACT", False),
    ("0.999", False), ("1", False), ("0.1...0.2", False), (f"0.1...<{VERSION}", False),
])
def test_versions(prefix: Path, tmp_path: Path, words: str, is_found: bool) -> None:
    (tmp_path / "CMakeLists.txt").write_text(f"{PROJECT}find_package(smblease {words})\n"
                                             'message(STATUS "found ${smblease_FOUND} ${smblease_VERSION}.")\n', encoding="utf-8")
    done = run("cmake", "-S", tmp_path, "-B", tmp_path / "built", f"-DCMAKE_PREFIX_PATH={prefix}")
    assert done.status == 0 and (f"found 1 {VERSION}." if is_found else "found 0") in done.output


def test_a_library_that_is_gone(prefix: Path, tmp_path: Path) -> None:
    """It isn't found, rather than missed when a program is linked."""
    shutil.copytree(prefix, tmp_path / "moved", symlinks=True)
    (tmp_path / "moved/lib/libsmblease.a").unlink()
    done = run("cmake", "-S", EXAMPLES, "-B", tmp_path / "built", f"-DCMAKE_PREFIX_PATH={tmp_path / 'moved'}")
    assert done.status == 1 and "libsmblease.a isn't there" in " ".join(done.errors.split())


@needs.program("pkg-config")
def test_pkg_config(prefix: Path, tmp_path: Path) -> None:
    shown = pkg_config(prefix, "--cflags", "--libs")
    assert shown.status == 0, shown
    command = f"{CC} -o '{tmp_path}/shared' examples/c/shared.c {shown.output}"
    assert run("sh", "-c", command) == Ended(0, "")
    variables = {"LD_LIBRARY_PATH": str(prefix / "lib")}
    assert run(tmp_path / "shared", EXAMPLE, variables=variables) == Ended(0, replayed(EXAMPLE))
