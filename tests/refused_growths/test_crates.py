"""The tests of the crates, as the gate builds them, with each of their growths refused.

Such a test passes, or ends with an error that is want of memory: an assertion that fails is an answer that changed. An assertion
may fail only where what is compared is itself want of memory.
"""
from __future__ import annotations

import functools
import re
import subprocess
from pathlib import Path
from typing import Iterator

import pytest

from tests.paths import TOP
from tests.program.ran import Ended
from tests.refused_growths.refusing import Refusing

pytestmark = pytest.mark.long
# A test in a source, and a module of a file that may have some.
TEST = re.compile(r"^( *)#\[test\]\n(?: *#\[.*\]\n)* *fn (\w+)", re.M)
# What an error of a test is that is want of memory, and what is compared where an assertion finds it.
WANTS = re.compile(rb"^error: (AllocError|AllocFailed \{ \.\. \}|Memory)$", re.M)
COMPARED = re.compile(rb"^ *left: (Err|Some)\(Memory\)$", re.M)


def crate_tests() -> Iterator[tuple[str, str]]:
    """Each test of a crate, as its sources show it, with its crate. The exports for C have none there: tests/c refuses each
    growth of the handles."""
    for folder in sorted((TOP / "crates").iterdir()):
        for source in sorted(folder.glob("src/**/*.rt")):
            text = source.read_text(encoding="utf-8")
            places = [it for it in source.relative_to(folder / "src").with_suffix("").parts if it != "lib"]
            for test in TEST.finditer(text):
                modules = re.findall(r"^mod (\w+) \{$", text[:test.start()], re.M)[-1:] if test[1] else []
                yield folder.name, "::".join([*places, *modules, test[2]])


@functools.lru_cache(maxsize=None)
def built_tests(crate: str) -> Path:
    """The tests of a crate as one program, as the gate leaves it; skipped where it isn't there or is older than its sources."""
    made = TOP / "crates" / crate / "out" / f"{crate}_tests"
    below = subprocess.run([TOP / "tools" / "crates", crate], stdout=subprocess.PIPE, check=True, text=True).stdout.split()
    parts = [TOP / "crates" / it / part for it in below for part in ("src", "specs", "proofs")]
    sources = [path for part in parts for path in part.glob("**/*.*t*")]
    if not made.exists() or made.stat().st_mtime < max(it.stat().st_mtime for it in sources):
        pytest.skip("the tests of the crates aren't built from these sources; the gate builds them")
    return made


@pytest.mark.parametrize(("crate", "name"), crate_tests())
def test_of_a_crate(tmp_path: Path, crate: str, name: str) -> None:
    def fits(_whole: Ended, ended: Ended, _number: int) -> bool:
        wants = ended.status == 101 and WANTS.search(ended.faults) or COMPARED.search(ended.faults)
        return ended.status == 0 or bool(wants)
    Refusing(tmp_path, [str(built_tests(crate)), name]).check(0, fits)
