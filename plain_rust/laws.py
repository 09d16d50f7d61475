"""Laws: functions that only state something, which go with their calls, their imports and what is then empty."""

from __future__ import annotations

from typing import Iterator, Mapping, Optional

from plain_rust.items import Form, Item, every, without
from plain_rust.reading import is_idle
from plain_rust.sources import Crate, Module, Naming
from plain_rust.tokens import Kind, Token, before, closing, sign, skip
from plain_rust.uses import Leaf, Path, prune


def is_law(item: Item) -> bool:
    """Whether a function states something and does nothing."""
    if item.form is not Form.FUNCTION or "ensures" not in item.clauses or item.body is None:
        return False
    changes = any(token.is_word("mut") for token in item.head)
    return is_idle(item.body) and not changes and all(token.is_trivia for token in item.result())


def path_at(tokens: list[Token], place: int) -> tuple[Path, int]:
    """The path whose last word is at `place`, and where it begins."""
    names, start = [tokens[place].text], place
    while True:
        second = before(tokens, start)
        first = before(tokens, second)
        if first < 0 or not (tokens[second].is_sign(":") and tokens[first].is_sign(":")):
            return tuple(names), start
        start = before(tokens, first)
        names.insert(0, tokens[start].text)


class Laws:
    """Takes the laws out of crates."""

    def __init__(self, crates: Mapping[str, Crate]) -> None:
        self.crates = crates
        self.naming = Naming(crates)
        self.found: set[Path] = set()
        self.names: set[str] = set()

    def modules(self) -> list[Module]:
        """All modules."""
        return [module for crate in self.crates.values() for module in crate.modules.values()]

    def find(self) -> bool:
        """Notes the laws that there are; whether one is new."""
        known = len(self.found)
        for module in self.modules():
            self.found.update((*module.whole, item.name) for item in module.functions() if is_law(item))
        self.names = {path[-1] for path in self.found}
        return len(self.found) > known

    def is_call(self, module: Module, tokens: list[Token], place: int) -> bool:
        """Whether a law is called by the word at this place."""
        if tokens[place].kind is not Kind.WORD or tokens[place].text not in self.names:
            return False
        following = skip(tokens, place + 1)
        if following >= len(tokens) or not tokens[following].is_sign("("):
            return False
        path, start = path_at(tokens, place)
        if before(tokens, start) >= 0 and tokens[before(tokens, start)].is_sign("."):
            return False
        return self.naming.function(module, path) in self.found

    def without_calls(self, module: Module, tokens: list[Token]) -> list[Token]:
        """A body without its calls of laws: a statement goes, and a value becomes that of nothing."""
        place = 0
        while place < len(tokens):
            if self.is_call(module, tokens, place):
                start = path_at(tokens, place)[1]
                end = closing(tokens, skip(tokens, place + 1)) + 1
                tokens, place = without_call(tokens, start, end)
            else:
                place += 1
        return tokens

    def drop_calls(self) -> None:
        """Takes the calls of laws out of all bodies."""
        for module in self.modules():
            for item in every(module.items):
                if item.form is Form.FUNCTION and item.body is not None:
                    item.body = self.without_calls(module, item.body)

    def drop_imports(self) -> None:
        """Takes the imports of laws away, once all are known: one may lead through another."""
        gone = {module.whole: frozenset(self.imports_of_laws(module)) for module in self.modules()}
        for module in self.modules():
            module.items, _ = prune(module.items, gone[module.whole].__contains__)

    def imports_of_laws(self, module: Module) -> Iterator[Leaf]:
        """The imports of a module that are of laws."""
        return (leaf for leaf in module.imports() if self.naming.function(module, leaf.path) in self.found)

    def drop_items(self) -> None:
        """Takes the laws themselves away."""
        for module in self.modules():
            module.items = without(module.items, [item for item in module.functions() if is_law(item)])

    def drop(self) -> int:
        """Takes all laws out; a function that only called laws is one then. Returns how many there were."""
        while self.find():
            self.drop_calls()
        self.drop_imports()
        self.drop_items()
        while drop_empty_modules(self.crates):
            pass
        return len(self.found)


def without_call(tokens: list[Token], start: int, end: int) -> tuple[list[Token], int]:
    """The tokens without the call that stands between these places, and where one goes on."""
    leading, following = before(tokens, start), skip(tokens, end)
    begins = leading < 0 or tokens[leading].text in ("{", "}", ";")
    if begins and following < len(tokens) and tokens[following].is_sign(";"):
        return tokens[: leading + 1] + tokens[following + 1 :], leading + 1
    if begins and following == len(tokens):
        return tokens[: leading + 1], leading + 1
    return tokens[:start] + [sign("("), sign(")")] + tokens[end:], start + 2


def declaration(items: list[Item], name: str) -> Optional[Item]:
    """The item `mod NAME;`."""
    return next((item for item in items if item.form is Form.MODULE and item.items is None and item.name == name), None)


def drop_empty_modules(crates: Mapping[str, Crate]) -> bool:
    """Takes modules away that have nothing left, with their declarations and imports; whether there was one."""
    changed = False
    for crate in crates.values():
        for path in [path for path, module in crate.modules.items() if path and module.is_empty]:
            del crate.modules[path]
            parent = crate.modules[path[:-1]]
            gone = declaration(parent.items, path[-1])
            if gone is not None:
                parent.items = without(parent.items, [gone])
                parent.items, _ = prune(parent.items, IsOf(path[-1]))
            changed = True
    return changed


class IsOf:
    """Says which imports begin with a name."""

    def __init__(self, name: str) -> None:
        self.name = name

    def __call__(self, leaf: Leaf) -> bool:
        return leaf.path[:1] == (self.name,) or leaf.path[:2] == ("crate", self.name)
