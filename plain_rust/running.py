"""Writes what is tied to a runtime or a writer as Rust has it: formatting, assertions, tests and `main`."""

from __future__ import annotations

from typing import Optional

from plain_rust.constructs import Fate, MACROS
from plain_rust.items import Form, Item, every
from plain_rust.sources import Module
from plain_rust.tokens import Kind, OPENING, Token, closing, closing_angle, rust, sign, skip, split_at_commas, text_of


def formatter(tokens: list[Token]) -> Optional[int]:
    """Where the tokens have `Formatter<W>`, the place of its parameter."""
    for place, token in enumerate(tokens[:-2]):
        if token.is_word("Formatter") and tokens[place + 1].is_sign("<") and tokens[place + 2].kind is Kind.WORD:
            return place + 2
    return None


def write_formatter(module: Module, item: Item) -> None:
    """A function over every kind of formatter becomes one over Rust's."""
    place = formatter(item.head)
    if place is None:
        return
    writer = item.head[place].text
    opening = skip(item.head, skip(item.head, item.place_of_word() + 1) + 1)
    if not item.head[opening].is_sign("<"):
        raise module.refuse(item, "a formatter over a writer that isn't the function's own")
    end = closing_angle(item.head, opening)
    own = split_at_commas(item.head[opening + 1 : end])
    left = [part for part in own if next(token.text for token in part if not token.is_trivia) != writer]
    item.head[place] = rust("'_")[0]
    kept = rust(f"<{', '.join(text_of(part).strip() for part in left)}>") if left else []
    item.head[opening : end + 1] = kept


def handle_end(tokens: list[Token], opening: int) -> Optional[int]:
    """The place behind the `;` that ends the handle of a macro whose bracket opens here."""
    place, end = opening + 1, closing(tokens, opening)
    while place < end:
        token = tokens[place]
        if token.is_sign(";"):
            return place + 1
        place = closing(tokens, place) + 1 if token.kind is Kind.SIGN and token.text in OPENING else place + 1
    return None


def without_handles(tokens: list[Token]) -> list[Token]:
    """The tokens without the handles of assertions."""
    place = 0
    while place + 2 < len(tokens):
        rule = MACROS.get(tokens[place].text) if tokens[place + 1].is_sign("!") else None
        if rule is not None and rule.fate is Fate.REWRITTEN and tokens[place + 2].is_sign("("):
            end = handle_end(tokens, place + 2)
            tokens = tokens if end is None else tokens[: place + 3] + tokens[skip(tokens, end) :]
        place += 1
    return tokens


def is_test_function(item: Item) -> bool:
    """Whether a function is a test."""
    return any(text_of(one.tokens) == "#[test]" for one in item.attributes)


def own_runtime(module: Module, item: Item) -> Optional[str]:
    """The name of the runtime that a function is given, its only parameter."""
    opening, end = item.parameters()
    parts = split_at_commas(item.head[opening + 1 : end])
    if not parts:
        return None
    words = [token.text for token in parts[0] if token.kind is Kind.WORD]
    if len(parts) > 1 or words[-1] != "HostRuntime":
        raise module.refuse(item, "a test or a main function with other parameters than a runtime")
    return words[0]


def write_test(module: Module, item: Item) -> None:
    """A test that is given a runtime becomes one without; one with a result fails by a panic."""
    body = item.body
    assert body is not None
    runtime = own_runtime(module, item)
    if runtime is not None and any(token.is_word(runtime) for token in body):
        body = [*rust(f" let {runtime} = HostRuntime::host();"), *body]
    opening, end = item.parameters()
    result = text_of(item.head[end + 1 :]).strip()
    if result:
        body = [*rust(f" std::test::passes(|| {result} "), sign("{"), *body, *rust("}) ")]
    item.head = [*item.head[: opening + 1], *rust(") ")]
    item.body = body


def write_main(module: Module, item: Item) -> None:
    """`main` becomes a function that is given its runtime."""
    if own_runtime(module, item) is None:
        raise module.refuse(item, "a main function without a runtime")
    item.head = [*rust("pub "), *item.head]


def write_running(module: Module, is_root: bool) -> None:
    """Writes all of a module that is tied to a runtime or a writer."""
    for item in every(module.items):
        if item.form is not Form.FUNCTION:
            continue
        write_formatter(module, item)
        if item.body is not None:
            item.body = without_handles(item.body)
        if is_test_function(item):
            write_test(module, item)
        elif is_root and item.name == "main":
            write_main(module, item)
