"""`pip install` of the clone itself without a network: in plain environments, which have no hatchling."""
from __future__ import annotations

from pathlib import Path

import pytest

from tests import needs
from tests.install.making import MARKS, environment, label, printed, pythons, ran
from tests.paths import TOP
from tests.program.test_version import said_by

PYTHONS = pythons()
# That of the tests, the oldest and the newest.
SOME = sorted({PYTHONS[0], PYTHONS[1 % len(PYTHONS)], PYTHONS[-1]})
pytestmark = [*MARKS, pytest.mark.long, pytest.mark.xdist_group("installed"),
              pytest.mark.skipif(not Path("/usr/lib/python3/dist-packages/hatchling").exists(),
                                 reason=f"there is no hatchling of Debian; {needs.INSTALLS}")]


@pytest.mark.parametrize("words", [[], ["--no-build-isolation"], ["--editable"]], ids=["isolated", "not isolated", "editable"])
@pytest.mark.parametrize("python", SOME, ids=label)
def test_plain_environment(tmp_path: Path, python: Path, words: list[str]) -> None:
    programs = environment(python, tmp_path)
    done = ran([programs / "python", "-m", "pip", "install", "--quiet", *words, TOP], tmp_path)
    assert done.returncode == 0, done
    assert printed([programs / "smblease-serve", "--version"], tmp_path) == said_by("smblease-serve")
    program = "import smblease.program; print(smblease.program.find_program())"
    found = TOP if words == ["--editable"] else programs
    assert printed([programs / "python", "-c", program], tmp_path) == f"{found / 'leasecheck'}\n"
