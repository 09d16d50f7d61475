"""Takes off what the prover alone reads: ghost items, attributes, derives and models."""

from __future__ import annotations

from typing import Mapping

from plain_rust.constructs import ATTRIBUTES, BOUNDS, Construct, DERIVES, Fate, GHOSTS, MACROS, TRAITS
from plain_rust.faults import NotKnown
from plain_rust.items import Attribute, Form, Item, without
from plain_rust.sources import Module
from plain_rust.tokens import Kind, Token, before, closing, closing_angle, rust, skip, split_at_commas, text_of
from plain_rust.uses import Leaf, prune


def fate(module: Module, rules: Mapping[str, Construct], name: str, line: int, what: str) -> Fate:
    """What becomes of a construct of this name, which has to be in the table."""
    if name not in rules:
        raise NotKnown(module.file, line, f"{what} {name!r}, which the table of constructs lacks")
    return rules[name].fate


def ghost_name(token: Token) -> str:
    """The word behind `ghost`."""
    rest = token.text[len("ghost") :].lstrip()
    return rest.replace(":", " ").replace("=", " ").split(None, 1)[0]


def check_ghost(module: Module, token: Token) -> None:
    """Refuses a ghost item that the table lacks."""
    fate(module, GHOSTS, ghost_name(token), token.line, "a ghost item")


def without_ghosts(module: Module, tokens: list[Token]) -> list[Token]:
    """The tokens without ghost fields and imports, each with its visibility and the comments right above it."""
    made: list[Token] = []
    for token in tokens:
        if token.kind is not Kind.GHOST:
            made.append(token)
            continue
        check_ghost(module, token)
        made = without_own(made)
    return made


def without_own(made: list[Token]) -> list[Token]:
    """The tokens without what is a part of what comes next: its visibility, and the comments that touch it."""
    last = before(made, len(made))
    if last >= 0 and made[last].is_word("pub"):
        made = made[:last]
    while len(made) > 1 and made[-1].kind is Kind.SPACE and made[-2].kind is Kind.COMMENT and made[-1].text.count("\n") == 1:
        made = made[:-2]
    return made


def trait_of(item: Item) -> str:
    """The last word of the path of the trait that an `impl` is of; nothing where it is of none."""
    place = skip(item.head, item.place_of_word() + 1)
    if item.head[place].is_sign("<"):
        place = skip(item.head, closing_angle(item.head, place) + 1)
    words = [token for token in item.head[place:] if not token.is_trivia]
    end = next((index for index, token in enumerate(words) if token.is_word("for") or token.is_sign("<")), 0)
    return words[end - 1].text if any(token.is_word("for") for token in words) else ""


def derived(module: Module, attribute: Attribute) -> list[str]:
    """The names that stay of a derive."""
    inner = attribute.tokens[attribute.tokens.index(Token(Kind.SIGN, "(", attribute.tokens[0].line)) + 1 : -2]
    names = [text_of(part).strip() for part in split_at_commas(inner)]
    if "Clone" in names and "Copy" not in names:
        raise NotKnown(module.file, attribute.tokens[0].line, "a derived clone that may fail")
    return [name for name in names if fate(module, DERIVES, name, attribute.tokens[0].line, "a derive") is not Fate.DROPPED]


def keep_attributes(module: Module, item: Item) -> None:
    """Takes the prover's attributes and derives off an item."""
    left: list[Attribute] = []
    for attribute in item.attributes:
        goes = fate(module, ATTRIBUTES, attribute.name, attribute.tokens[0].line, "an attribute") is Fate.DROPPED
        names = derived(module, attribute) if attribute.name == "derive" else None
        if names is not None:
            attribute.tokens = rust(f"#[derive({', '.join(names)})]")
        if not goes and names != []:
            left.append(attribute)
        elif any(token.kind is Kind.COMMENT for token in attribute.behind):
            keep_comments(item, left, attribute.behind)
    item.attributes = left


def keep_comments(item: Item, attributes: list[Attribute], comments: list[Token]) -> None:
    """Puts comments that stood behind an attribute behind those that an item has."""
    if attributes:
        attributes[-1].behind += comments
    else:
        item.lead = [*item.lead, *comments]


def keep_inner_attributes(module: Module, tokens: list[Token]) -> list[Token]:
    """The tokens of a body without attributes that are the prover's."""
    made: list[Token] = []
    place = 0
    while place < len(tokens):
        token = tokens[place]
        if token.is_sign("#") and place + 1 < len(tokens) and tokens[place + 1].is_sign("["):
            end = closing(tokens, place + 1) + 1
            name = next(one.text for one in tokens[place:end] if one.kind is Kind.WORD)
            if fate(module, ATTRIBUTES, name, token.line, "an attribute") is not Fate.DROPPED:
                made += tokens[place:end]
            place = end
        else:
            made.append(token)
            place += 1
    return made


def without_macros(module: Module, tokens: list[Token]) -> list[Token]:
    """The tokens without the macros that are proved; one that the table lacks is refused."""
    place = 0
    while place + 1 < len(tokens):
        token = tokens[place]
        is_macro = token.kind is Kind.WORD and tokens[place + 1].is_sign("!") and tokens[place + 2].text in ("(", "[", "{")
        if is_macro and fate(module, MACROS, token.text, token.line, "a macro") is Fate.DROPPED:
            end = closing(tokens, place + 2) + 1
            tokens = tokens[: before(tokens, place) + 1] + tokens[end + tokens[end].is_sign(";") :]
        else:
            place += 1
    return tokens


def without_bounds(head: list[Token]) -> list[Token]:
    """The head of an item without bounds that every type meets."""
    place = 0
    while place + 1 < len(head):
        named = skip(head, place + 1)
        is_bound = head[place].is_sign(":") and named < len(head) and head[named].text in BOUNDS
        if is_bound and head[named].kind is Kind.WORD and head[skip(head, named + 1)].text in (",", ">"):
            head = head[:place] + head[named + 1 :]
        place += 1
    return head


def is_model(module: Module, item: Item) -> bool:
    """Whether an item is an `impl` that the prover alone reads."""
    name = trait_of(item) if item.form is Form.IMPL else ""
    return name in TRAITS and fate(module, TRAITS, name, item.line, "a trait") is Fate.DROPPED


def is_of_prover(leaf: Leaf) -> bool:
    """Whether an import is of what the prover alone reads."""
    return leaf.path[:2] == ("std", "marker") and leaf.path[-1] in TRAITS


def erased(module: Module, items: list[Item]) -> list[Item]:
    """The items without what the prover alone reads."""
    for item in items:
        if item.form is Form.GHOST:
            check_ghost(module, next(token for token in item.head if token.kind is Kind.GHOST))
    items = without(items, [item for item in items if item.form is Form.GHOST or is_model(module, item)])
    for item in items:
        keep_attributes(module, item)
        item.head = without_bounds(item.head)
        if item.body is not None:
            item.body = without_macros(module, keep_inner_attributes(module, without_ghosts(module, item.body)))
        if item.items is not None:
            item.items = erased(module, item.items)
    return prune(items, is_of_prover)[0]
