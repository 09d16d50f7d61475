"""The examples in the doc strings of the package and in docs/PYTHON.md, and the programs in examples/python."""
from __future__ import annotations

import doctest
import importlib
import inspect
import os
import pkgutil
import subprocess
import sys
from pathlib import Path

import pytest

import smblease
import smblease.manager_decisions
from tests.paths import EXAMPLE, PACKAGES, RUNS, TOP

MODULES = [it.name for it in pkgutil.iter_modules(smblease.__path__) if not it.ispkg]
GIVEN = [it for module in (smblease, smblease.manager_decisions)
         for it in map(vars(module).get, module.__all__) if inspect.isclass(it) or inspect.isfunction(it)]
EXAMPLES = TOP / "examples/python"
LEASE = ("10000400000018002000000052714c7300000000000102030405060708090a0b0c0d0e0f"
         "07000000000000000000000000000000")


def run(program: Path, *words: str | Path) -> tuple[int, str]:
    """The status of a program, and what it prints on both streams."""
    done = subprocess.run([sys.executable, program, *words], stdin=subprocess.DEVNULL, stdout=subprocess.PIPE,
                          stderr=subprocess.STDOUT, text=True, check=False, env={**os.environ, "PYTHONPATH": PACKAGES})
    return done.returncode, done.stdout


@pytest.mark.parametrize("name", MODULES)
def test_examples_in_a_module(name: str) -> None:
    failed, tried = doctest.testmod(importlib.import_module(f"smblease.{name}"))
    assert failed == 0
    assert tried or name.startswith("_"), "it has no examples"


def test_examples_on_the_page() -> None:
    failed, tried = doctest.testfile(f"{TOP}/docs/PYTHON.md", module_relative=False, encoding="utf-8")
    assert failed == 0 and tried > 0


@pytest.mark.parametrize("given", [pytest.param(it, id=it.__name__) for it in GIVEN])
def test_each_public_call_has_an_example(given: object) -> None:
    """Each class and function that the package gives, and each public method of these classes."""
    found = doctest.DocTestFinder(exclude_empty=False).find(given)
    assert found
    assert not [it.name for it in found if not it.examples and not it.name.split(".")[-1].startswith("_")]


@pytest.mark.parametrize("contexts, expected", [
    pytest.param(f"00000000{LEASE}", (0, "context 52714c73 32\nlease 00010203-0405-0607-0809-0a0b0c0d0e0f RWH\n"), id="a_lease"),
    pytest.param(f"38000000{LEASE}", (1, "fault 1 Short at 56\n"), id="a_next_that_leads_nowhere"),
    pytest.param("", (0, "nothing\n"), id="nothing"),
])
def test_contexts_are_shown(contexts: str, expected: tuple[int, str]) -> None:
    assert run(EXAMPLES / "contexts.py", contexts) == expected


def test_shared_plays_the_example(program: str) -> None:
    replayed = subprocess.run([program, "replay", EXAMPLE], capture_output=True, text=True, check=True).stdout
    assert run(EXAMPLES / "shared.py", EXAMPLE) == (0, replayed.removesuffix("# safe\n"))


@pytest.mark.parametrize("words, beginning", [
    pytest.param([], "usage: ", id="no_file"), pytest.param(["/nowhere"], "shared.py: ", id="a_file_that_is_not_there"),
    pytest.param([RUNS[0]], "shared.py: fault line 1", id="a_record"),
])
def test_shared_is_refused(words: list[str | Path], beginning: str) -> None:
    status, said = run(EXAMPLES / "shared.py", *words)
    assert (status, said.count("\n"), said[:len(beginning)]) == (1, 1, beginning)
