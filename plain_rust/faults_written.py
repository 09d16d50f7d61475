"""Writes out the derive of `thiserror`: `Display` and Rust's own `Error`."""

from __future__ import annotations

from typing import Iterator

from plain_rust.faults import NotKnown
from plain_rust.items import Attribute, Form, Item, items_of
from plain_rust.sources import Module
from plain_rust.tokens import Kind, Token, closing, rust, skip, split_at_commas, text_of, word
from plain_rust.uses import Leaf, prune

DISPLAY = """

impl std::fmt::Display for {name} {{
    fn fmt(&self, f: &mut std::fmt::Formatter<'_>) -> std::fmt::Result {{
        f.write_str({told})
    }}
}}

impl std::error::Error for {name} {{}}
"""


def names_of(attribute: Attribute) -> list[str]:
    """The names of a derive."""
    inner = text_of(attribute.tokens).removeprefix("#[derive(").removesuffix(")]")
    return [name.strip() for name in inner.split(",")]


def is_fault(item: Item) -> bool:
    """Whether an item's `Display` and `Error` are derived."""
    derive = item.attribute("derive")
    return derive is not None and "Error" in names_of(derive)


def told_in(module: Module, attribute: list[Token]) -> str:
    """The text of an attribute `error`, which holds no field."""
    text = next(token for token in attribute if token.kind is Kind.STRING)
    if "{" in text.text:
        raise NotKnown(module.file, text.line, "an error whose text holds a field")
    return text.text


def variants(module: Module, item: Item) -> Iterator[tuple[str, str]]:
    """Each variant with its text; one with fields is refused. Their attributes are taken off."""
    left: list[Token] = []
    for part in split_at_commas(item.body or []):
        opening = min(place for place, token in enumerate(part) if token.is_sign("#"))
        end = closing(part, opening + 1) + 1
        name = skip(part, end)
        if skip(part, name + 1) < len(part):
            raise NotKnown(module.file, part[name].line, "an error with fields")
        yield part[name].text, told_in(module, part[opening:end])
        left += part[:opening] + part[name:] + [word(",")]
    item.body = left


def shown(module: Module, item: Item) -> str:
    """What `Display` writes of a fault."""
    if item.form is Form.ENUM:
        arms = [f"{item.name}::{name} => {told}," for name, told in variants(module, item)]
        return f"match self {{ {' '.join(arms)} }}"
    attribute = item.attribute("error")
    if attribute is None:
        raise NotKnown(module.file, item.line, "an error without a text")
    item.attributes.remove(attribute)
    return told_in(module, attribute.tokens)


def written(module: Module, item: Item) -> list[Item]:
    """A fault with its `Display` and its `Error` behind it."""
    derive = item.attribute("derive")
    assert derive is not None
    names = [name for name in names_of(derive) if name != "Error"]
    derive.tokens = rust(f"#[derive({', '.join(names)})]")
    source = DISPLAY.format(name=item.name, told=shown(module, item))
    return [item, *(one for one in items_of(module.file, rust(source)) if one.form is not Form.REST)]


def is_of_thiserror(leaf: Leaf) -> bool:
    """Whether an import is of the derive."""
    return leaf.path == ("thiserror", "Error")


def write_faults(module: Module) -> None:
    """Writes out each derived fault of a module."""
    items = []
    for item in module.items:
        items += written(module, item) if is_fault(item) else [item]
    module.items = prune(items, is_of_thiserror)[0]
