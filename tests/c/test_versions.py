"""Leases of version 2 from C: the example, and the fields of each struct."""
from __future__ import annotations

from pathlib import Path

import pytest

from tests.c import building
from tests.c.building import Ended, run


EPOCHS = "client 1: granted 7, epoch 5\nclient 1: broken to 3, epoch 6\n"


@pytest.mark.parametrize("source, wanted", [("examples/c/epochs.c", EPOCHS), ("tests/c/versions.c", ""),
                                            ("tests/c/client_versions.c", "")])
def test_program(folder: Path, source: str, wanted: str) -> None:
    assert run(building.program(folder, source)) == Ended(0, wanted)
