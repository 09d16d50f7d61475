"""The library of plain Rust decides as the proved one does, for random calls of a manager."""
from __future__ import annotations

import os
import subprocess
import sys
from pathlib import Path

import pytest

from tests import needs
from tests.paths import PACKAGES, TOP
from tests.plain.builds import plain_folder, proved_folder

pytestmark = [needs.program("cargo"), pytest.mark.long]
PARTS, CALLS = 8, 25_000


def told(folder: Path, seed: str) -> bytes:
    """What the calls print by the library of a folder."""
    command = [sys.executable, "-m", "tests.plain.manager_calls", seed, str(CALLS)]
    env = {**os.environ, "SMBLEASE_LIBRARY": str(folder / "libsmblease.so"), "PYTHONPATH": PACKAGES}
    return subprocess.run(command, cwd=TOP, env=env, stdout=subprocess.PIPE, timeout=600, check=True).stdout


@pytest.mark.parametrize("part", range(PARTS))
def test_random_calls(part: int, request: pytest.FixtureRequest) -> None:
    seed = f"{request.config.getoption('seed')} {part}"
    plain = told(plain_folder(), seed)
    assert plain.count(b"\n") >= CALLS
    assert plain == told(proved_folder(), seed)
