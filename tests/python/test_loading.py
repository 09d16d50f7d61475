"""Where the package finds the library, and which it refuses."""
from __future__ import annotations

import os
import shutil
import subprocess
import sys
from pathlib import Path
from types import SimpleNamespace
from typing import Any

import pytest

from smblease import _library
from tests.paths import TOP

BUILT = f"{TOP}/out/c/libsmblease.so"
PROVED, DIST, PLAIN = "out/proved", "dist/x86_64-linux", "out/plain"
UNSET = ("SMBLEASE_LIBRARY", "SMBLEASE_BUILD", "LD_LIBRARY_PATH")
REMEDY = (" To have it, run `make install` or `pip install .` at the top of the repository, or set"
          " SMBLEASE_LIBRARY to the path of its libsmblease.so")


def loaded(packages: Path = TOP / "python", **variables: str) -> tuple[int, str]:
    """The status of a program that loads the package with these variables, and the last line that it prints."""
    kept = {name: value for name, value in os.environ.items() if name not in UNSET}
    program = "from smblease import _library; print(_library.library._name)"
    done = subprocess.run([sys.executable, "-c", program], stdout=subprocess.PIPE, stderr=subprocess.STDOUT, text=True,
                          check=False, env={**kept, "PYTHONPATH": str(packages), **variables})
    return done.returncode, done.stdout.rstrip("\n").split("\n")[-1]


def test_a_library_that_is_named() -> None:
    assert loaded(SMBLEASE_LIBRARY=BUILT) == (0, BUILT)


@pytest.mark.parametrize("name, said", [
    pytest.param("/nowhere", "ImportError: libsmblease can't be loaded: /nowhere", id="that_is_not_there"),
    pytest.param("libc.so.6", "ImportError: libc.so.6 has no smblease_", id="another_one"),
])
def test_a_library_that_is_refused(name: str, said: str) -> None:
    """What is wrong is said, and what to do."""
    status, last = loaded(SMBLEASE_LIBRARY=name)
    assert (status, last[:len(said)]) == (1, said)
    assert last.endswith(REMEDY)


def test_a_library_that_is_nowhere(tmp_path: Path) -> None:
    """The package stands in no repository, brings no library, and none is installed."""
    shutil.copytree(TOP / "python/smblease", tmp_path / "smblease")
    status, last = loaded(tmp_path)
    assert (status, last.startswith("ImportError: libsmblease can't be loaded: libsmblease.so.0: ")) == (1, True)
    assert last.endswith(REMEDY)


def test_a_library_that_the_loader_finds(tmp_path: Path) -> None:
    """The package stands in no repository, and brings no library."""
    shutil.copytree(TOP / "python/smblease", tmp_path / "smblease")
    shutil.copy(BUILT, tmp_path / "libsmblease.so.0")
    assert loaded(tmp_path, LD_LIBRARY_PATH=str(tmp_path)) == (0, "libsmblease.so.0")


def test_a_library_that_the_package_brings(tmp_path: Path) -> None:
    shutil.copytree(TOP / "python/smblease", tmp_path / "smblease")
    shutil.copy(BUILT, tmp_path / "smblease/libsmblease.so")
    assert loaded(tmp_path) == (0, str(tmp_path / "smblease/libsmblease.so"))


def repository(folder: Path, *places: str) -> Path:
    """The packages of a repository with the library at these places, of which each is newer than the one before."""
    (folder / "include").mkdir(parents=True)
    (folder / "include/smblease.h").touch()
    shutil.copytree(TOP / "python", folder / "python")
    for age, place in enumerate(reversed(places)):
        made = folder / place / "libsmblease.so"
        made.parent.mkdir(parents=True)
        shutil.copy(BUILT, made)
        os.utime(made, (2e9 - age, 2e9 - age))
    return folder / "python"


@pytest.mark.parametrize("places", [[DIST], [PROVED], [DIST, PROVED], [PROVED, DIST]], ids="-".join)
def test_the_library_of_a_repository(tmp_path: Path, places: list[str]) -> None:
    """The newer one is taken of what was proved there and what it came with, wherever it stands; nothing is linked."""
    packages = repository(tmp_path / "a clone", *places)
    assert loaded(packages, PATH="/nowhere") == (0, str(packages.parent / places[-1] / "libsmblease.so"))


def test_what_cargo_built(tmp_path: Path) -> None:
    """It comes behind what was proved, however new it is, unless it is asked for."""
    packages = repository(tmp_path, DIST, PLAIN)
    assert loaded(packages) == (0, str(tmp_path / DIST / "libsmblease.so"))
    assert loaded(packages, SMBLEASE_BUILD="plain") == (0, str(tmp_path / PLAIN / "libsmblease.so"))
    shutil.rmtree(tmp_path / "dist")
    assert loaded(packages) == (0, str(tmp_path / PLAIN / "libsmblease.so"))


def test_a_library_that_does_not_run_here(tmp_path: Path) -> None:
    """The other one of the repository serves."""
    packages = repository(tmp_path, PROVED, DIST)
    (tmp_path / DIST / "libsmblease.so").write_bytes(b"no library")
    assert loaded(packages) == (0, str(tmp_path / PROVED / "libsmblease.so"))


@pytest.mark.parametrize("major, minor", [(0, 4), (0, 5)])
def test_a_version_that_fits(major: int, minor: int) -> None:
    check(major, minor)


@pytest.mark.parametrize("major, minor", [(0, 3), (1, 4)])
def test_a_version_that_does_not_fit(major: int, minor: int) -> None:
    with pytest.raises(ImportError, match=f"^one has version {major}.{minor}.0; 0.4 is needed. To have it, run `make install`"):
        check(major, minor)


def check(major: int, minor: int) -> None:
    version = SimpleNamespace(major=major, minor=minor, patch=0)
    library: Any = SimpleNamespace(smblease_version=lambda: version)
    _library._check_version("one", library)  # pylint: disable=protected-access
