"""Writes a module's items where they stand in the workspace: paths, the prelude's names, docs."""

from __future__ import annotations

from dataclasses import dataclass
from typing import Iterator, Mapping

from plain_rust.constructs import LINTS, OUTSIDE, PRELUDE, PRELUDE_MACROS, RUSTC
from plain_rust.items import Form, Item
from plain_rust.sources import Crate, Module
from plain_rust.tokens import Kind, Token, before, rust, text_of, word

FENCE = "```"


@dataclass(frozen=True)
class Place:
    """Where the modules of a crate stand in the workspace: the path of its root, and those of the crates that it stands on."""

    root: str
    others: Mapping[str, str]


def place_of(crate: Crate, own: Mapping[str, str], others: Mapping[str, str]) -> Place:
    """The place of a crate: `own` has the paths of those in the same package, `others` those of other packages."""
    paths = {**OUTSIDE, **others, **own}
    return Place(own[crate.name], {name: paths[name] for name in crate.dependencies if name in paths})


def is_double_colon(tokens: list[Token], place: int) -> bool:
    """Whether `::` begins at this place."""
    return 0 <= place < len(tokens) - 1 and tokens[place].is_sign(":") and tokens[place + 1].is_sign(":")


def begins_path(tokens: list[Token], place: int) -> bool:
    """Whether the word at this place is a path's first, with `::` behind it."""
    last = before(tokens, place)
    is_behind = last >= 0 and (tokens[last].is_sign(".") or is_double_colon(tokens, last - 1))
    return tokens[place].kind is Kind.WORD and is_double_colon(tokens, place + 1) and not is_behind


def with_paths(tokens: list[Token], place: Place) -> list[Token]:
    """The tokens with the paths that they have in the workspace."""
    made = []
    for index, token in enumerate(tokens):
        path = place.root if token.text == "crate" else place.others.get(token.text)
        if token.kind is Kind.COMMENT:
            token = token._replace(text=token.text.replace("](crate::", f"]({place.root}::"))
        made.append(word(path) if path is not None and begins_path(tokens, index) else token)
    return made


def own_tokens(item: Item) -> Iterator[Token]:
    """The tokens of an item but those of modules within it."""
    if item.form is not Form.MODULE:
        yield from item.tokens()


def used_names(items: list[Item]) -> list[str]:
    """The names of the prelude that items use without an import of their own."""
    found = set()
    for item in items:
        tokens = [token for token in own_tokens(item) if not token.is_trivia]
        for place, token in enumerate(tokens):
            is_macro = place + 1 < len(tokens) and tokens[place + 1].is_sign("!") and token.text in PRELUDE_MACROS
            is_alone = place == 0 or not tokens[place - 1].is_sign(":") or not tokens[place - 2].is_sign(":")
            if token.kind is Kind.WORD and (is_macro or (token.text in PRELUDE and is_alone)):
                found.add(token.text)
    return sorted(found)


def with_prelude(items: list[Item]) -> list[Item]:
    """The items behind an import of the prelude's names that they use."""
    for item in items:
        if item.form is Form.MODULE and item.items is not None:
            item.items = with_prelude(item.items)
    names = used_names(items)
    if not names:
        return items
    imported = Item(Form.USE, 0, [], [], rust(f"use std::prelude::{{{', '.join(names)}}}"), tail=rust(";\n"))
    first = next((item for item in items if item.form is not Form.REST), None)
    if first is not None:
        docs = inner_docs(first.lead)
        imported.lead, first.lead = [*first.lead[:docs], *rust("\n")], first.lead[docs:]
    return [imported, *items]


def inner_docs(lead: list[Token]) -> int:
    """How many tokens of a lead are of the docs of what it stands in."""
    return max((place + 1 for place, token in enumerate(lead) if token.text.startswith("//!")), default=0)


def with_fences(tokens: list[Token]) -> list[Token]:
    """The tokens with the code in docs marked as what is no test: it is Rattle."""
    made = []
    is_open = False
    for token in tokens:
        if token.kind is Kind.COMMENT and token.text.startswith(("///", "//!")) and token.text[3:].strip().startswith(FENCE):
            is_bare = token.text[3:].strip() == FENCE
            token = token._replace(text=token.text + "text") if is_bare and not is_open else token
            is_open = not is_open
        made.append(token)
    return made


def allowed() -> str:
    """The lints that the modules are allowed, each reason once."""
    reasons = dict.fromkeys(lint.why for lint in LINTS.values())
    return "".join(allowed_for(reason) for reason in reasons)


def allowed_for(reason: str) -> str:
    """The lints that are allowed for one reason. Those of rustc have their names, those of clippy its own before them."""
    names = [lint.name for lint in LINTS.values() if lint.why == reason]
    full = [name if name in RUSTC else f"clippy::{name}" for name in names]
    return f'#![allow({", ".join(full)}, reason = "{reason}")]\n'


def written(module: Module, place: Place) -> str:
    """The module as the file that it becomes."""
    items = with_prelude(module.items)
    tokens = [token for item in items for token in item.tokens()]
    head = f"// Made by tools/plain_rust from {module.file}. Changes belong there.\n\n"
    text = text_of(with_fences(with_paths(tokens, place))).strip() + "\n"
    return head + text
