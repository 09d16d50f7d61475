"""Fields of variants that no pattern names, and names in patterns that no code reads."""

from __future__ import annotations

from collections import Counter
from dataclasses import dataclass
from typing import Callable, Iterator, Sequence

from plain_rust.index import Index
from plain_rust.items import Form, Item, every
from plain_rust.patterns import is_pattern, reads_bound
from plain_rust.reading import is_plain, places_of
from plain_rust.sources import Module
from plain_rust.tokens import Kind, Token, before, closing, rust, skip, split_at_commas

# The derives that read no field.
BLIND = frozenset(("Clone", "Copy", "Debug"))
# The variants that are named without their enum.
PATHLESS = frozenset(("Some", "Ok", "Err"))
# The word that gives no name to what it stands for, and those that are values.
NAMELESS = "_"
VALUES = frozenset(("true", "false"))


@dataclass(frozen=True)
class Group:
    """The brackets behind a variant's name: named fields in braces, or values in parentheses, whose names are their places."""

    tokens: list[Token]
    opening: int

    @property
    def is_named(self) -> bool:
        """Whether the fields have names."""
        return self.tokens[self.opening].is_sign("{")

    def parts(self) -> list[tuple[str, list[Token]]]:
        """Each field by its name, with what is said of it; what has no name is left out."""
        inner = split_at_commas(self.tokens[self.opening + 1 : closing(self.tokens, self.opening)])
        named = [(first_word(part) if self.is_named else str(place), part) for place, part in enumerate(inner)]
        return [(name, part) for name, part in named if name]

    def lone_names(self) -> list[tuple[str, str]]:
        """The fields to which a pattern gives a name and nothing else, each with that name."""
        said = [(field, [token for token in part if not token.is_trivia]) for field, part in self.parts()]
        alone = [(field, words[0]) for field, words in said if len(words) == 1]
        return [(field, word.text) for field, word in alone if word.text[0].islower() and word.text not in VALUES]

    def written(self, parts: Sequence[list[Token]], rest: str = "") -> list[Token]:
        """All tokens with these parts in the brackets, and what a pattern has last; the brackets go with the last of it."""
        end = closing(self.tokens, self.opening)
        made: list[Token] = []
        for part in parts:
            made += [*part, *rust(",")]
        made += rust(f" {rest} ")
        left = before(self.tokens, self.opening) + 1
        if all(token.is_trivia for token in made):
            return self.tokens[:left] + self.tokens[end + 1 :]
        return self.tokens[:left] + [*rust(" "), self.tokens[self.opening], *made, self.tokens[end]] + self.tokens[end + 1 :]

    def without(self, field: str) -> list[Token]:
        """All tokens without a field."""
        return self.written([part for name, part in self.parts() if name != field])

    def unnamed(self, field: str) -> list[Token]:
        """All tokens of a pattern that gives no name to a field."""
        if self.is_named:
            return self.written([part for name, part in self.parts() if name != field], "..")
        return self.written([rust(NAMELESS) if name == field else part for name, part in self.parts()])


@dataclass(frozen=True)
class Variant:
    """A variant with fields of an enum; whether others than its crate may name them."""

    item: Item
    name: str
    is_named: bool
    fields: tuple[str, ...]
    is_kept: bool


@dataclass(frozen=True)
class Use:
    """A place where a variant is written with its fields: in which item, and where their brackets open."""

    item: Item
    opening: int

    @property
    def group(self) -> Group:
        """The brackets, as the item has them now."""
        return Group(self.item.body or [], self.opening)

    @property
    def is_pattern(self) -> bool:
        """Whether it is of a pattern."""
        return is_pattern(self.item.body or [], self.opening)

    def reads(self, field: str) -> bool:
        """Whether it is of a pattern that names a field or compares it, or makes a value for it by more than a name."""
        mine = [[token for token in part if not token.is_sign(":")] for name, part in self.group.parts() if name == field]
        is_looked_at = any(not token.is_trivia and token.text not in (NAMELESS, ".") for part in mine for token in part)
        return is_looked_at if self.is_pattern else not all(is_plain(part) for part in mine)


def first_word(part: Sequence[Token]) -> str:
    """The first word of a part behind attributes, docs and a visibility; nothing where it has none."""
    place = skip(part, 0)
    while place < len(part) and part[place].is_sign("#"):
        place = skip(part, closing(part, place + 1) + 1)
    if place < len(part) and part[place].is_word("pub"):
        place = skip(part, place + 1)
    return part[place].text if place < len(part) and part[place].kind is Kind.WORD else ""


def group_behind(tokens: Sequence[Token], place: int) -> int:
    """Where the brackets open that follow the word at this place; -1 where none do."""
    following = skip(tokens, place + 1)
    return following if following < len(tokens) and tokens[following].text in ("{", "(") else -1


def reads_fields(item: Item) -> bool:
    """Whether an enum derives something that reads its fields."""
    derive = item.attribute("derive")
    names = {token.text for token in derive.tokens if token.kind is Kind.WORD} if derive else set()
    return bool(names - BLIND - {"derive"})


def groups_of(item: Item) -> Iterator[tuple[str, Group]]:
    """The variants of an enum that have fields, by their names, with the brackets of these."""
    body = item.body or []
    names = [first_word(part) for part in split_at_commas(body)]
    for name in names:
        found = [group_behind(body, place) for place in places_of(body, name) if group_behind(body, place) >= 0]
        if found:
            yield name, Group(body, found[0])


def variants(modules: Sequence[Module], is_shown: Callable[[Module, Item], bool]) -> list[Variant]:
    """The variants with fields that no other one is written like."""
    found = []
    for module in modules:
        for item in (item for item in every(module.items) if item.form is Form.ENUM):
            is_kept = is_shown(module, item) or reads_fields(item)
            for name, group in groups_of(item):
                found.append(Variant(item, name, group.is_named, tuple(field for field, _ in group.parts()), is_kept))
    count = Counter((one.item.name, one.name, one.is_named) for one in found)
    return [one for one in found if count[one.item.name, one.name, one.is_named] == 1]


def uses(index: Index, variant: Variant) -> Iterator[Use]:
    """The places where a variant is written with its fields; in each function from the last on."""
    for _, item in index.saying(variant.name):
        tokens = item.body or []
        for place in reversed(list(places_of(tokens, variant.name))):
            is_path = place > 2 and tokens[place - 1].is_sign(":") and tokens[place - 3].text in (variant.item.name, "Self")
            opening = group_behind(tokens, place)
            if is_path and opening >= 0 and Group(tokens, opening).is_named == variant.is_named:
                yield Use(item, opening)


def drop_field(variant: Variant, field: str, found: Sequence[Use]) -> None:
    """Takes a field out of its variant, of what is made of that, and of patterns; braces go with the last one."""
    for use in found:
        if variant.fields == (field,):
            use.item.body = use.group.written([])
        elif not (use.is_pattern and use.group.is_named):
            use.item.body = use.group.without(field)
    variant.item.body = next(group for name, group in groups_of(variant.item) if name == variant.name).without(field)


def is_variant(tokens: Sequence[Token], place: int) -> bool:
    """Whether the word at this place is a variant's, by a path or by a name that needs none."""
    token = tokens[place]
    return token.kind is Kind.WORD and (token.text in PATHLESS or (token.text[0].isupper() and tokens[place - 1].is_sign(":")))


def patterns(index: Index) -> Iterator[Use]:
    """The patterns of variants with fields, of any enum; in each function from the last on."""
    for _, item in index.functions:
        tokens = item.body or []
        for place in range(len(tokens) - 1, 2, -1):
            if is_variant(tokens, place) and group_behind(tokens, place) >= 0 and is_pattern(tokens, group_behind(tokens, place)):
                yield Use(item, group_behind(tokens, place))


def drop_names(index: Index) -> bool:
    """Takes names out of patterns that nothing reads; whether there was one."""
    changed = False
    for use in patterns(index):
        names = use.group.lone_names()
        unread = [field for field, name in names if not reads_bound(use.group.tokens, use.opening, name)]
        if unread:
            use.item.body = use.group.unnamed(unread[0])
            changed = True
    return changed


def drop_fields(modules: Sequence[Module], index: Index, is_shown: Callable[[Module, Item], bool]) -> bool:
    """Takes out the first field of each variant that nothing reads; whether there was one."""
    changed = False
    for variant in (one for one in variants(modules, is_shown) if not one.is_kept):
        found = list(uses(index, variant))
        unread = [field for field in variant.fields if not any(use.reads(field) for use in found)]
        if unread:
            drop_field(variant, unread[0], found)
            changed = True
    return changed
