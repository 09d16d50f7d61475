"""Damaged packets while somebody else is served, and a crowd of clients."""
from __future__ import annotations

import random
from pathlib import Path

import pytest

from tests import needs
from tests.serve.conftest import Start

pytestmark = needs.package("impacket")


@pytest.mark.parametrize("count", [600, pytest.param(20000, marks=pytest.mark.long)])
def test_damaged_packets(start: Start, chooser: random.Random, count: int) -> None:
    """They are other ones for another --seed. The server answers or closes, and complains of nothing."""
    from tests.serve.damage import Damager  # pylint: disable=import-outside-toplevel
    damager = Damager(start("--break-timer", "0.2", "--durable-timer", "1").place, chooser)
    try:
        damager.send(count)
        damager.is_served()
    finally:
        damager.close()
    assert damager.sent == count


@pytest.mark.parametrize("clients, requests", [(16, 100)])
def test_a_crowd(start: Start, tmp_path: Path, clients: int, requests: int) -> None:
    from tests.serve.crowd import crowded  # pylint: disable=import-outside-toplevel
    server = start(record=tmp_path / "record")
    members = crowded(server.place, clients, requests)
    server.close()
    assert all(it.answered >= requests for it in members) and sum(it.breaks for it in members) > 0
    assert server.verdict == "safe"
