"""Plain Rust answers as what was proved does: the same status and the same bytes on both streams, for random inputs."""
from __future__ import annotations

import os
import random
import subprocess
from pathlib import Path

import pytest

from tests import needs
from tests.plain.builds import plain_folder, proved_folder
from tests.plain.drawn_inputs import Input, drawn
from tests.program.ran import Ended

pytestmark = [needs.program("cargo"), pytest.mark.long]
PARTS = 20
# In all 20,000 inputs.
INPUTS = int(os.environ.get("SMBLEASE_PLAIN_INPUTS", "1000"))


def ended(folder: Path, one: Input) -> Ended:
    had = subprocess.run([folder / "leasecheck", *one.words], input=one.given, capture_output=True, timeout=120, check=False)
    return Ended(had.returncode, had.stdout, had.stderr)


@pytest.mark.parametrize("part", range(PARTS))
def test_random_inputs(part: int, request: pytest.FixtureRequest) -> None:
    chance = random.Random(f"{request.config.getoption('seed')} {part}")
    plain, proved = plain_folder(), proved_folder()
    for _ in range(INPUTS):
        one = drawn(chance)
        assert ended(plain, one) == ended(proved, one), one
