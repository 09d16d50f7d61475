"""The program of docs/C.md, over the library that `make install` installed, prints what the page says."""
from __future__ import annotations

import re
from pathlib import Path

import pytest

from tests import needs
from tests.c.building import CC, STRICT, Ended, pkg_config, run
from tests.paths import TOP

PAGE = (TOP / "docs" / "C.md").read_text(encoding="utf-8")
[PROGRAM] = re.findall(r"^```c\n(.*?)^```$", PAGE, re.M | re.S)
[PRINTED] = re.findall(r"^It prints\n\n((?:    .*\n)+)", PAGE, re.M)
SCREENFUL = 60


def libraries(prefix: Path, kind: str) -> list[str]:
    """What the page gives the linker, of each kind."""
    if kind == "shared":
        return pkg_config(prefix, "--cflags", "--libs").output.split()
    folder = pkg_config(prefix, "--variable=libdir").output.strip()
    return [*pkg_config(prefix, "--cflags").output.split(), f"{folder}/libsmblease.a"]


@needs.program("pkg-config")
@needs.program(CC)
@pytest.mark.parametrize("kind", ["shared", "archive"])
def test_the_program_of_the_page(prefix: Path, tmp_path: Path, kind: str) -> None:
    source, program = tmp_path / "lend.c", tmp_path / "lend"
    source.write_text(PROGRAM, encoding="utf-8")
    assert run(CC, "-std=c99", *STRICT, "-o", program, source, *libraries(prefix, kind)) == Ended(0, "")
    variables = {"LD_LIBRARY_PATH": f"{prefix}/lib"} if kind == "shared" else {}
    assert run(program, variables=variables) == Ended(0, re.sub(r"^    ", "", PRINTED, flags=re.M))


def test_the_program_is_a_screenful() -> None:
    assert PROGRAM.count("\n") <= SCREENFUL
