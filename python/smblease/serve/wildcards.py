"""Patterns of names (MS-SMB2 2.2.33, MS-FSA 2.1.4.4)."""
from __future__ import annotations

from functools import lru_cache
from typing import FrozenSet

from smblease.serve.names import folded

ANY, ONE, DOS_STAR, DOS_QM, DOS_DOT = "*", "?", "<", ">", '"'
# steps of patterns that are known: a list of many names has few of them
MOST_STEPS = 16384
Places = FrozenSet[int]


def matches(pattern: str, name: str) -> bool:
    """Whether a name is one of a pattern's, with case left out. Each step takes all places of the pattern that the name can be at
    by then, so that no pattern takes long."""
    if pattern == ANY:
        return True
    shape, text = folded(pattern), folded(name)
    last, places = text.rfind("."), _skipped(shape, {0}, text[:1])
    for place, letter in enumerate(text):
        following = text[place + 1:place + 2]
        places = _stepped(shape, places, letter, place == last, following if following in ("", ".") else ANY)
    return len(shape) in places


@lru_cache(MOST_STEPS)
def _stepped(shape: str, places: Places, letter: str, is_last_dot: bool, following: str) -> Places:
    """The places after a letter. Of the one that follows it matters only whether it is a dot, or none."""
    after: set[int] = set()
    for it in places:
        after |= _taken(shape, it, letter, is_last_dot)
    return _skipped(shape, after, following)


def _skipped(shape: str, places: set[int], following: str) -> Places:
    """With the places that can be come to by no letter, where this one follows, or none."""
    found, left = set(places), list(places)
    while left:
        place = left.pop()
        kind = shape[place:place + 1]
        is_skipped = kind in (ANY, DOS_STAR) or kind == DOS_QM and following in ("", ".") or kind == DOS_DOT and not following
        if kind and is_skipped and place + 1 not in found:
            found.add(place + 1)
            left.append(place + 1)
    return frozenset(found)


def _taken(shape: str, place: int, letter: str, is_last_dot: bool) -> set[int]:
    """Where the pattern is after a letter. DOS_STAR goes on up to the last dot, and takes that too."""
    kind = shape[place:place + 1]
    if kind == ANY or kind == DOS_STAR and not is_last_dot:
        return {place}
    fits = kind in (ONE, DOS_STAR) or kind == DOS_QM and letter != "." or kind == DOS_DOT and letter == "." or kind == letter
    return {place + 1} if kind and fits else set()
