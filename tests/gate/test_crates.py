"""There are few crates, and no long chain of them: each costs a start of the prover, and a chain can't be proved side by side."""
from __future__ import annotations

import functools
import re

from tests.paths import TOP

MOST_CRATES = 30
DEEPEST = 10
LINE = re.compile(r"^(\w+)(?: staticlib)?: ?(.*)$", re.M)


def crates() -> dict[str, list[str]]:
    """The crates of the repository, each with those of the repository that it stands on."""
    found = {name: uses.split() for name, uses in LINE.findall((TOP / "crates.txt").read_text(encoding="utf-8"))}
    return {name: [it for it in uses if it in found] for name, uses in found.items()}


def test_crates_are_few() -> None:
    assert 1 < len(crates()) <= MOST_CRATES
    assert {it.name for it in (TOP / "crates").iterdir() if (it / "src").is_dir()} == set(crates())


def test_no_chain_is_long() -> None:
    uses = crates()

    @functools.lru_cache(maxsize=None)
    def depth(name: str) -> int:
        return 1 + max(map(depth, uses[name]), default=0)

    depths = {name: depth(name) for name in uses}
    assert depths["lease_state"] == 1
    assert {name: deep for name, deep in depths.items() if deep > DEEPEST} == {}
