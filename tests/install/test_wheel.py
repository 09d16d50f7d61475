"""What is in the wheel and the sdist, and what the wheel says of the systems that it is for."""
from __future__ import annotations

import importlib.util
import re
import shutil
import struct
import subprocess
import sys
import sysconfig
import tarfile
import zipfile
from pathlib import Path
from types import ModuleType

import pytest

from tests import needs
from tests.install.making import MARKS, made_wheel, ran
from tests.paths import TOP, built_program
from tests.program.test_version import VERSION

pytestmark = [*MARKS, pytest.mark.xdist_group("installed")]
COMMANDS = ("capture", "compare", "explore", "run", "serve", "torture")
DIST = TOP / "dist" / "x86_64-linux"
PROVED = pytest.mark.skipif(needs.IS_BY_CARGO, reason="what cargo builds needs the glibc that it was built with")


def contents(wheel: Path) -> dict[str, bytes]:
    with zipfile.ZipFile(wheel) as opened:
        return {name: opened.read(name) for name in opened.namelist()}


def needed_glibc(file: Path) -> set[tuple[int, ...]]:
    """The versions of glibc that a program's or a library's symbols have."""
    told = subprocess.run(["objdump", "-T", file], stdout=subprocess.PIPE, text=True, check=True).stdout
    return {tuple(map(int, it.split("."))) for it in re.findall(r"\bGLIBC_([\d.]+)", told)}


@PROVED
def test_name(wheel: Path) -> None:
    """Any Python 3, on x86-64 Linux with glibc 2.34 or later."""
    assert wheel.name == f"smblease-{VERSION}-py3-none-manylinux_2_34_x86_64.whl"
    said = contents(wheel)[f"smblease-{VERSION}.dist-info/WHEEL"].decode()
    assert re.findall(r"^Tag: (.*)$", said, re.M) == ["py3-none-manylinux_2_34_x86_64"]


@PROVED
@needs.DIST
@needs.program("objdump")
def test_no_newer_glibc_is_needed() -> None:
    assert max(needed_glibc(DIST / "leasecheck")) == (2, 34)
    assert max(needed_glibc(DIST / "libsmblease.so")) <= (2, 34)


def test_what_tools_current_finds_is_in_it(wheel: Path) -> None:
    program = Path(built_program())
    has = contents(wheel)
    assert has["smblease/libsmblease.so"] == (program.parent / "libsmblease.so").read_bytes()
    place = f"smblease-{VERSION}.data/data/libexec/smblease/leasecheck"
    assert has[place] == program.read_bytes()
    with zipfile.ZipFile(wheel) as opened:
        for name in (place, f"smblease-{VERSION}.data/scripts/leasecheck"):
            assert opened.getinfo(name).external_attr >> 16 & 0o111 == 0o111


def test_all_of_the_package_is_in_it(wheel: Path) -> None:
    files = subprocess.run(["git", "ls-files", "python"], cwd=TOP, stdout=subprocess.PIPE, text=True, check=False).stdout.split()
    assert {it.removeprefix("python/") for it in files if (TOP / it).exists()} <= set(contents(wheel))


def test_its_commands(wheel: Path) -> None:
    said = contents(wheel)[f"smblease-{VERSION}.dist-info/entry_points.txt"].decode()
    assert re.findall(r"^smblease-(\w+) = ", said, re.M) == list(COMMANDS)


def test_each_command_has_its_page_and_its_completion(wheel: Path) -> None:
    share, has = f"smblease-{VERSION}.data/data/share", contents(wheel)
    for name in ("leasecheck", *(f"smblease-{it}" for it in COMMANDS)):
        assert has[f"{share}/man/man1/{name}.1"] == (TOP / "man" / "man1" / f"{name}.1").read_bytes()
        assert has[f"{share}/bash-completion/completions/{name}"] == (TOP / "completion" / name).read_bytes()


def test_the_sdist_has_what_dist_is_found_by(sdist: Path) -> None:
    with tarfile.open(sdist) as opened:
        names = set(opened.getnames())
    top = f"smblease-{VERSION}"
    assert {f"{top}/dist/x86_64-linux/{it.name}" for it in DIST.iterdir()} <= names
    assert {f"{top}/{it}" for it in ("docs/PYTHON.md", "README.md", "COPYING.md", "rust/Cargo.lock", "tools/current")} <= names
    assert not [it for it in names if "/out/" in it or "/.git/" in it]


@PROVED
def test_a_wheel_of_the_sdist_is_that_of_the_clone(wheel: Path, sdist: Path, tmp_path: Path) -> None:
    assert contents(made_wheel(sdist, tmp_path)) == contents(wheel)


@PROVED
def test_why_there_is_no_wheel(sdist: Path, tmp_path: Path) -> None:
    """Without dist/ and cargo, which isn't on the path here."""
    with tarfile.open(sdist) as opened:
        opened.extractall(tmp_path)
    source = tmp_path / f"smblease-{VERSION}"
    shutil.rmtree(source / "dist")
    done = ran([sys.executable, "-m", "pip", "wheel", "--no-build-isolation", "--no-deps", source], tmp_path)
    assert done.returncode == 1 and "neither cargo, which builds it from rust/" in done.stderr
    assert "Traceback" not in done.stderr


def module_of(name: str) -> ModuleType:
    spec = importlib.util.spec_from_file_location(name, TOP / "tools" / f"{name}.py")
    assert spec and spec.loader
    made = importlib.util.module_from_spec(spec)
    spec.loader.exec_module(made)
    return made


@pytest.fixture(name="hook", scope="module")
def build_hook() -> ModuleType:
    return module_of("hatch_build")


@pytest.mark.parametrize("is_there", [True, False])
def test_hatchling_is_asked_for_only_where_it_is_missing(tmp_path: Path, monkeypatch: pytest.MonkeyPatch, is_there: bool) -> None:
    """In an environment that pip made for the backend nothing but Debian's folder can have it."""
    backend = module_of("build_backend")
    monkeypatch.setattr(backend, "DEBIAN", str(tmp_path))
    monkeypatch.setattr(backend, "MODULES", ["hatchling_of_a_test"])
    monkeypatch.setattr(sys, "path", list(sys.path))
    if is_there:
        (tmp_path / "hatchling_of_a_test.py").touch()
    assert backend.get_requires_for_build_wheel() == ([] if is_there else ["hatchling>=1.12"])


def a_file(path: Path, machine: int, *symbols: str) -> Path:
    """An ELF header of 64 bits, and a table of names."""
    header = struct.pack("<16sHHI40x", b"\x7fELF\2\1\1", 3, machine, 1)
    path.write_bytes(header + b"".join(b"\0" + it.encode() for it in symbols) + b"\0")
    return path


def test_newer_symbols_need_a_newer_system(hook: ModuleType, tmp_path: Path) -> None:
    old = a_file(tmp_path / "old", 62, "GLIBC_2.2.5", "GLIBC_2.14")
    new = a_file(tmp_path / "new", 62, "GLIBC_2.2.5", "GLIBC_2.38", "GLIBC_PRIVATE")
    assert hook.platform_of([old]) == "manylinux_2_14_x86_64"
    assert hook.platform_of([old, new]) == "manylinux_2_38_x86_64"
    assert hook.platform_of([a_file(tmp_path / "other", 183, "GLIBC_2.17")]) == "manylinux_2_17_aarch64"


@pytest.mark.parametrize("machine, symbols", [(62, ()), (8, ("GLIBC_2.17",))], ids=["no_glibc", "another_machine"])
def test_what_is_no_manylinux_is_of_this_system_alone(hook: ModuleType, tmp_path: Path, machine: int,
                                                      symbols: tuple[str, ...]) -> None:
    own = re.sub(r"\W", "_", sysconfig.get_platform())
    assert hook.platform_of([a_file(tmp_path / "one", machine, *symbols)]) == own
