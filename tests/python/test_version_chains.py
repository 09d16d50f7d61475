"""What random chains of create contexts of either version ask for, compared with a reader of the rules in MS-SMB2 3.3.5.9."""
from __future__ import annotations

import random
import struct
from typing import Optional

import pytest

from smblease import CreateAsk, LeaseState, Manager, Rules, Status, Versions
from smblease._arguments import key_of
from tests.python.version_bytes import chain

CHAINS, MANY_CHAINS = 5_000, 50_000
# The lengths of the data of each context that is known; its kind, of which a create has one.
KNOWN = {b"RqLs": ((32, 52), "lease"), b"DHnQ": ((16,), "durable"), b"DH2Q": ((32,), "durable"), b"DHnC": ((16,), "reconnect"),
         b"DH2C": ((36,), "reconnect")}
NAMES = [*KNOWN, b"MxAc", b"QFid"]
ODD_LENGTHS = [0, 8, 16, 20, 32, 36, 40, 52, 60]
# Of durable contexts these alone go together.
TOGETHER = (b"DHnQ", b"DHnC")


def drawn(chooser: random.Random) -> list[tuple[bytes, bytes]]:
    """Contexts in any order; now and then of a wrong length, or twice."""
    contexts = []
    for _ in range(chooser.choice([0, 1, 1, 2, 2, 3, 4])):
        name = chooser.choice(NAMES)
        right = KNOWN[name][0] if name in KNOWN else ODD_LENGTHS
        length = chooser.choice(right if chooser.random() < 0.95 else ODD_LENGTHS)
        contexts.append((name, chooser.randbytes(length)))
    return contexts


def wanted(contexts: list[tuple[bytes, bytes]]) -> Optional[CreateAsk]:
    """What they ask for; nothing where they can't be read."""
    found: dict[str, tuple[bytes, bytes]] = {}
    for name, data in contexts:
        if name not in KNOWN:
            continue
        lengths, kind = KNOWN[name]
        if len(data) not in lengths or kind in found:
            return None
        found[kind] = name, data
    if "durable" in found and "reconnect" in found and (found["durable"][0], found["reconnect"][0]) != TOGETHER:
        return None
    ask = CreateAsk(durable="durable" in found)
    if "lease" in found:
        key, state = struct.unpack_from("<16sL", found["lease"][1])
        ask = CreateAsk(key_of(key), LeaseState(state & 7), ask.durable)
    if "reconnect" in found:
        ask = CreateAsk(ask.key, ask.state, ask.durable, *struct.unpack_from("<Q", found["reconnect"][1]))
    return ask


@pytest.mark.parametrize("count", [CHAINS, pytest.param(MANY_CHAINS, marks=pytest.mark.long)])
def test_chains(count: int, chooser: random.Random) -> None:
    seen = set()
    with Manager(Rules.of("by-key,whole")) as manager, Versions(manager) as versions:
        for tag in range(count):
            contexts = drawn(chooser)
            had, ask = versions.asked(1, tag, chain(contexts)), wanted(contexts)
            assert (had.ask, had.status, had.again) == (ask, None if ask else Status.INVALID_PARAMETER, None), contexts
            seen.add(ask and (ask.key is not None, ask.durable, ask.reconnect is not None))
            versions.forget(1)
    assert len(seen) == 9
