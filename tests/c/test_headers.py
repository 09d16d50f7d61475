"""The headers, as each standard of C and C++ takes them, and the structs that they share with the proved library."""
from __future__ import annotations

from pathlib import Path

import pytest

from tests import needs
from tests.c import layout
from tests.c.building import CC, CXX, STRICT, Ended, run
from tests.paths import TOP

HEADERS = sorted((TOP / "include").glob("*.h"))
STANDARDS = [*(pytest.param(CC, "c", it, id=it, marks=needs.program(CC)) for it in ("c99", "c11", "c17", "c2x")),
             *(pytest.param(CXX, "c++", it, id=it, marks=needs.program(CXX)) for it in ("c++98", "c++17"))]


@pytest.mark.parametrize("header", [pytest.param(it, id=it.name) for it in HEADERS])
@pytest.mark.parametrize("compiler, language, standard", STANDARDS)
def test_a_header_alone(compiler: str, language: str, standard: str, header: Path) -> None:
    assert run(compiler, f"-std={standard}", *STRICT, "-fsyntax-only", "-x", language, header) == Ended(0, "")


@pytest.mark.parametrize("order", ["messages_first", "machines_first"])
@pytest.mark.parametrize("compiler, language, standard", STANDARDS)
def test_all_headers(compiler: str, language: str, standard: str, order: str) -> None:
    define = ["-DMACHINES_FIRST"] if order == "machines_first" else []
    words = [compiler, f"-std={standard}", *STRICT, *define, "-Iinclude", "-fsyntax-only", "-x", language, "tests/c/both.c"]
    assert run(*words) == Ended(0, "")


def test_structs_of_the_headers_are_those_of_the_library() -> None:
    assert layout.declared_in(HEADERS) == sorted(layout.structs())


@needs.program(CC)
def test_structs_are_laid_out_as_the_library_has_them(tmp_path: Path) -> None:
    """The program has an assertion for each field, and doesn't compile where one fails."""
    source = tmp_path / "layout.c"
    source.write_text(layout.assertions(HEADERS), encoding="utf-8")
    assert run(CC, "-std=c99", *STRICT, "-Iinclude", "-fsyntax-only", source) == Ended(0, "")
