"""Patterns with braces: which braces are of one, and where the names are read that it gives."""

from __future__ import annotations

from typing import Optional, Sequence

from plain_rust.reading import says
from plain_rust.tokens import CLOSING, OPENING, Token, before, closing, skip, split_at_commas, text_of

# No pattern has more tokens.
MOST = 60
# What follows a pattern that no `=` follows.
BEHIND = ("|", "if", "in")


def is_pattern(tokens: Sequence[Token], opening: int) -> bool:
    """Whether the braces that open here are of a pattern: `..` at their end tells, or what follows."""
    last = before(tokens, closing(tokens, opening))
    if tokens[last].is_sign(".") and tokens[last - 1].is_sign("."):
        return True
    following = behind(tokens, opening)
    if following is None:
        return False
    is_given = tokens[following].is_sign("=") and not tokens[following + 1].is_sign("=")
    return is_given or tokens[following].text in BEHIND


def behind(tokens: Sequence[Token], opening: int) -> Optional[int]:
    """What follows the braces that open here, and the other brackets that these stand in; nothing where a block ends before."""
    place = skip(tokens, closing(tokens, opening) + 1)
    while place < len(tokens) and tokens[place].text in (")", "]", ","):
        if tokens[place].is_sign(","):
            place = group_end(tokens, place)
            if place == len(tokens) or tokens[place].is_sign("}"):
                return None
        place = skip(tokens, place + 1)
    return place if place + 1 < len(tokens) else None


def group_end(tokens: Sequence[Token], place: int) -> int:
    """Where the bracket closes that this place is in; the end where it is in none."""
    while place < len(tokens) and tokens[place].text not in CLOSING:
        place = closing(tokens, place) + 1 if tokens[place].text in OPENING else place + 1
    return place


def arm(tokens: Sequence[Token], opening: int) -> Optional[tuple[int, int]]:
    """From where to where the arm goes whose pattern has the braces that open here; nothing where it is no arm's."""
    following = behind(tokens, opening)
    if following is None or not (tokens[following].is_sign("=") and tokens[following + 1].is_sign(">")):
        return None
    start = skip(tokens, following + 2)
    if tokens[start].is_sign("{"):
        return start, closing(tokens, start)
    end = start
    while end < len(tokens) and not tokens[end].is_sign(",") and tokens[end].text not in CLOSING:
        end = closing(tokens, end) + 1 if tokens[end].text in OPENING else end + 1
    return start, end


def lone_names(tokens: Sequence[Token], opening: int) -> list[str]:
    """The names that stand alone between commas in the braces that open here, where these may be a pattern's."""
    depth = 0
    for place in range(opening, min(opening + MOST, len(tokens))):
        depth += (tokens[place].text in OPENING) - (tokens[place].text in CLOSING)
        if depth == 0:
            inner = split_at_commas(tokens[opening + 1 : place])
            return [text_of(part).strip() for part in inner if sum(not token.is_trivia for token in part) == 1]
    return []


def reads(tokens: Sequence[Token], name: str) -> bool:
    """Whether a body reads a name from outside: where an arm's pattern gives it to another value, it doesn't."""
    if not says(tokens, name):
        return False
    kept: list[Token] = []
    place = 0
    while place < len(tokens):
        found = shadowed(tokens, place, name) if tokens[place].text == "{" else None
        kept.append(tokens[place])
        place = place + 1 if found is None else found
    return says(kept, name)


def shadowed(tokens: Sequence[Token], place: int, name: str) -> Optional[int]:
    """The end of the arm whose pattern's braces open here and give this name to a value."""
    if not says(tokens[place : place + MOST], name) or name not in lone_names(tokens, place):
        return None
    found = arm(tokens, place)
    return None if found is None else found[1]


def reads_bound(tokens: Sequence[Token], opening: int, name: str) -> bool:
    """Whether a name is read that the pattern gives whose braces open here."""
    found = arm(tokens, opening)
    if found is not None:
        return says(tokens[found[0] : found[1]], name)
    return says([*tokens[:opening], *tokens[closing(tokens, opening) :]], name)
