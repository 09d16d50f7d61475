"""What a piece of code reads and does, as far as its tokens tell."""

from __future__ import annotations

from typing import Collection, Iterator, Sequence

from plain_rust.constructs import READS
from plain_rust.tokens import Kind, Token, skip

CONDITIONS = frozenset(("for", "if", "in", "match"))
# What may change something, go on for ever, leave the code or fail.
DOES = frozenset(("break", "continue", "loop", "mut", "return", "while", "?", "!", "[", "+", "-", "/", "%"))
# What stands between names where a value is named, or one within it.
NAMING = frozenset(("&", "*", "."))


def places_of(tokens: Sequence[Token], name: str) -> Iterator[int]:
    """Where the tokens say a name."""
    return (place for place, token in enumerate(tokens) if token.is_word(name))


def says(tokens: Sequence[Token], name: str) -> bool:
    """Whether the tokens say a name, be it in the braces of a text."""
    return any(token.is_word(name) or is_formatted(token, name) for token in tokens)


def is_formatted(token: Token, name: str) -> bool:
    """Whether a text has a name in braces."""
    return token.kind is Kind.STRING and any("{" + name + end in token.text for end in ("}", ":"))


def is_label(tokens: Sequence[Token], place: int) -> bool:
    """Whether the word at this place names what stands behind a colon."""
    following = skip(tokens, place + 1)
    is_colon = following < len(tokens) and tokens[following].is_sign(":")
    return is_colon and not (following + 1 < len(tokens) and tokens[following + 1].is_sign(":"))


def means(tokens: Sequence[Token], name: str) -> bool:
    """Whether the tokens say a name where it means what was imported by it."""
    return any(not is_label(tokens, place) for place in places_of(tokens, name))


def is_called(tokens: Sequence[Token], place: int) -> bool:
    """Whether parentheses follow the word at this place."""
    following = skip(tokens, place + 1)
    return following < len(tokens) and tokens[following].is_sign("(")


def is_idle(tokens: Sequence[Token]) -> bool:
    """Whether code only looks at values: it ends, changes nothing, can't fail. A capital begins a variant, which is no call."""
    return not any(does_something(tokens, place) for place in range(len(tokens)))


def does_something(tokens: Sequence[Token], place: int) -> bool:
    """Whether the token at this place may do more than look at a value."""
    token = tokens[place]
    if token.kind is Kind.WORD and is_called(tokens, place) and not token.text[0].isupper():
        return token.text not in READS and token.text not in CONDITIONS
    return token.kind in (Kind.WORD, Kind.SIGN) and token.text in DOES


def is_plain(tokens: Sequence[Token], idle: Collection[str] = ()) -> bool:
    """Whether code names a value, or one within it, or calls a method without arguments that is idle."""
    for place, token in enumerate(tokens):
        named = tokens[max(place - 2, 0) : place]
        is_empty_call = token.text in ("(", ")") and any(one.text in idle or one.text in READS for one in named)
        if not (token.is_trivia or token.kind is Kind.WORD or token.text in NAMING or is_empty_call):
            return False
    return True
