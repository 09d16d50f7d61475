"""A crowd that is in trouble for some seconds; bench/soak has it for as long as is wanted."""
from __future__ import annotations

import random
from pathlib import Path

import pytest

from tests import needs

pytestmark = needs.package("impacket")
MOST_MEMORY = 300


@pytest.mark.parametrize("seconds", [8.0, pytest.param(60.0, marks=pytest.mark.long)])
def test_nothing_acknowledged_is_lost(program: str, tmp_path: Path, chooser: random.Random, seconds: float) -> None:
    from tests.serve.soak import soaked  # pylint: disable=import-outside-toplevel
    found = soaked(program, tmp_path, 16, seconds, chooser.getrandbits(32))
    assert not found.lost
    assert found.memory < MOST_MEMORY
    assert min(found.written, found.read, found.breaks, found.cuts, found.faults, found.damaged) > 0, found.text


def test_what_is_lost_is_seen() -> None:
    from tests.serve.soak import BLOCK, Block  # pylint: disable=import-outside-toplevel
    block = Block(b"a" * BLOCK, [b"b" * BLOCK])
    assert [block.may_be(it * BLOCK) for it in (b"a", b"b", b"\0")] == [True, True, False]
