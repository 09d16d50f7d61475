"""The items of a module: each with what stands before it, its attributes, its head and its body."""

from __future__ import annotations

from dataclasses import dataclass, field
from enum import Enum
from typing import Iterator, Optional, Sequence

from plain_rust.faults import NotKnown
from plain_rust.tokens import Kind, OPENING, Token, before, closing, closing_angle, sign, skip, text_of


class Form(Enum):
    """What an item is."""

    USE = "use"
    MODULE = "mod"
    FUNCTION = "fn"
    STRUCT = "struct"
    ENUM = "enum"
    IMPL = "impl"
    TRAIT = "trait"
    CONST = "const"
    STATIC = "static"
    TYPE = "type"
    RULES = "macro_rules"
    MACRO = "a macro's call"
    GHOST = "ghost"
    REST = "what stands behind the last item"


NESTING = (Form.IMPL, Form.TRAIT, Form.MODULE)
BY_WORD = {form.value: form for form in Form if form not in (Form.MACRO, Form.REST)}
# Words that may stand between the visibility and the word that says what an item is.
QUALIFIERS = ("unsafe", "const", "extern")


@dataclass
class Attribute:
    """An attribute, outer or inner, with the trivia behind it."""

    tokens: list[Token]
    behind: list[Token]

    @property
    def name(self) -> str:
        """Its first word."""
        return next(token.text for token in self.tokens if token.kind is Kind.WORD)

    @property
    def is_inner(self) -> bool:
        """Whether it is of what it stands in."""
        return self.tokens[1].is_sign("!")


@dataclass
class Item:
    """An item. Its body stands between braces: tokens, or items where it is one of items."""

    form: Form
    line: int
    lead: list[Token] = field(default_factory=list)
    attributes: list[Attribute] = field(default_factory=list)
    head: list[Token] = field(default_factory=list)
    clauses: list[str] = field(default_factory=list)
    body: Optional[list[Token]] = None
    items: Optional[list[Item]] = None
    tail: list[Token] = field(default_factory=list)

    @property
    def name(self) -> str:
        """The word behind the one that says what it is."""
        place = self.place_of_word()
        return self.head[skip(self.head, place + 1)].text

    def place_of_word(self) -> int:
        """Where the word stands in the head that says what the item is."""
        return next(place for place, token in enumerate(self.head) if token.is_word(self.form.value))

    @property
    def is_public(self) -> bool:
        """Whether it has a visibility of its own."""
        first = skip(self.head, 0)
        return first < len(self.head) and self.head[first].is_word("pub")

    def attribute(self, name: str) -> Optional[Attribute]:
        """The first attribute of this name."""
        return next((one for one in self.attributes if one.name == name), None)

    @property
    def is_test(self) -> bool:
        """Whether it is there for tests alone."""
        return any(text_of(one.tokens) in ("#[test]", "#[cfg(test)]") for one in self.attributes)

    def parameters(self) -> tuple[int, int]:
        """Where a function's parentheses stand in the head."""
        place = skip(self.head, skip(self.head, self.place_of_word() + 1) + 1)
        if self.head[place].is_sign("<"):
            place = skip(self.head, closing_angle(self.head, place) + 1)
        return place, closing(self.head, place)

    def result(self) -> list[Token]:
        """What stands in the head behind a function's parentheses."""
        return self.head[self.parameters()[1] + 1 :]

    def tokens(self) -> list[Token]:
        """The whole item as it is written."""
        made = list(self.lead)
        for attribute in self.attributes:
            made += attribute.tokens + attribute.behind
        made += self.head
        if self.body is not None:
            made += [sign("{"), *self.body, sign("}")]
        if self.items is not None:
            made += [sign("{"), *(token for item in self.items for token in item.tokens()), sign("}")]
        return made + self.tail


class Parser:
    """Reads items from tokens."""

    def __init__(self, file: str, tokens: Sequence[Token]) -> None:
        self.file = file
        self.tokens = tokens
        self.place = 0

    def refuse(self, what: str) -> NotKnown:
        """The fault of what stands here."""
        here = min(self.place, len(self.tokens) - 1)
        return NotKnown(self.file, self.tokens[here].line, what)

    def taken(self, end: int) -> list[Token]:
        """The tokens up to this place, which are behind us then."""
        found = list(self.tokens[self.place : end])
        self.place = end
        return found

    def attributes(self) -> Iterator[Attribute]:
        """The attributes that begin here."""
        while self.place < len(self.tokens) and self.tokens[self.place].is_sign("#"):
            opening = self.place + (2 if self.tokens[self.place + 1].is_sign("!") else 1)
            own = self.taken(closing(self.tokens, opening) + 1)
            yield Attribute(own, self.taken(skip(self.tokens, self.place)))

    def form(self) -> Form:
        """What the item is whose visibility or first word is here."""
        place = self.place
        if self.tokens[place].kind is Kind.GHOST:
            return Form.GHOST
        if self.tokens[place].is_word("pub"):
            place = skip(self.tokens, place + 1)
            if self.tokens[place].is_sign("("):
                place = skip(self.tokens, closing(self.tokens, place) + 1)
        if self.tokens[place].kind is Kind.GHOST:
            return Form.GHOST
        while self.is_qualifier(place):
            place = skip(self.tokens, place + 1)
        found = self.tokens[place]
        if found.kind is Kind.WORD and self.tokens[place + 1].is_sign("!"):
            return Form.RULES if found.text == "macro_rules" else Form.MACRO
        if found.kind is not Kind.WORD or found.text not in BY_WORD:
            raise self.refuse(f"an item that begins with {found.text!r}")
        return BY_WORD[found.text]

    def is_qualifier(self, place: int) -> bool:
        """Whether what stands here says something of the item whose word comes later."""
        following = self.tokens[skip(self.tokens, place + 1)]
        if self.tokens[place].kind is Kind.STRING:
            return True
        is_alone = self.tokens[place].is_word("const") and following.text not in ("fn", "unsafe", "extern")
        return self.tokens[place].text in QUALIFIERS and not is_alone

    def head_end(self, form: Form) -> int:
        """Where the body or the last `;` of the item is that begins here."""
        ends_with_block = form not in (Form.USE, Form.CONST, Form.STATIC, Form.TYPE)
        place = self.place
        while place < len(self.tokens):
            token = self.tokens[place]
            if token.is_sign(";") or (ends_with_block and token.is_sign("{")):
                return place
            place = closing(self.tokens, place) + 1 if token.kind is Kind.SIGN and token.text in OPENING else place + 1
        raise self.refuse(f"{form.value} without an end")

    def split_clauses(self, item: Item) -> None:
        """Takes the clauses out of the head, with the comments between and behind them."""
        first = next((place for place, token in enumerate(item.head) if token.kind is Kind.CLAUSE), None)
        if first is not None:
            behind = item.head[first:]
            item.clauses = [token.text.split(None, 1)[0].split("{")[0] for token in behind if token.kind is Kind.CLAUSE]
            if any(not token.is_trivia and token.kind is not Kind.CLAUSE for token in behind):
                raise self.refuse("something behind a clause that is neither a clause nor the body")
            item.head = item.head[: before(item.head, first) + 1] + [Token(Kind.SPACE, " ", 0)]

    def item(self) -> Item:
        """The item that begins here."""
        start = self.tokens[self.place].line
        lead = self.taken(skip(self.tokens, self.place))
        if self.place == len(self.tokens):
            return Item(Form.REST, start, lead)
        attributes = list(self.attributes())
        if self.place == len(self.tokens):
            return Item(Form.REST, start, lead, attributes)
        item = Item(self.form(), self.tokens[self.place].line, lead, attributes)
        if item.form is Form.GHOST:
            end = next(place for place in range(self.place, len(self.tokens)) if self.tokens[place].kind is Kind.GHOST)
            item.head = self.taken(end + 1)
            return item
        end = self.head_end(item.form)
        item.head = self.taken(end)
        self.split_clauses(item)
        if self.tokens[end].is_sign(";"):
            item.tail = self.taken(end + 1)
            return item
        inner = self.taken(closing(self.tokens, end) + 1)[1:-1]
        if item.form in NESTING:
            item.items = items_of(self.file, inner)
        else:
            item.body = inner
        return item

    def items(self) -> list[Item]:
        """All items, and what stands behind the last one."""
        found = []
        while self.place < len(self.tokens):
            found.append(self.item())
        return found


def items_of(file: str, tokens: Sequence[Token]) -> list[Item]:
    """The items that these tokens are; the file's name is for faults."""
    try:
        return Parser(file, tokens).items()
    except ValueError as fault:
        raise NotKnown(file, tokens[0].line, str(fault)) from fault


def every(items: Sequence[Item]) -> Iterator[Item]:
    """The items and those within them."""
    for item in items:
        yield item
        yield from every(item.items or [])


def without(items: list[Item], goes: Sequence[Item]) -> list[Item]:
    """The items without these, whose own comments go too; a blank line and what stands before it stays with the next one."""
    gone = {id(item) for item in goes}
    kept: list[Item] = []
    left: list[Token] = []
    for item in items:
        if id(item) in gone:
            left += apart(item.lead)
        else:
            item.lead = left + item.lead
            left = []
            kept.append(item)
    if any(token.kind is Kind.COMMENT for token in left):
        kept.append(Item(Form.REST, 0, left))
    return kept


def apart(lead: list[Token]) -> list[Token]:
    """What stands before an item without being its own: inner docs, and what a blank line parts from it."""
    for place in range(len(lead) - 1, -1, -1):
        token = lead[place]
        is_blank = token.kind is Kind.SPACE and token.text.count("\n") > 1
        if is_blank or token.text.startswith("//!"):
            return lead[: place + 1]
    return []
