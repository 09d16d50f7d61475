"""Imports as trees: what they name, and the same without some of it."""

from __future__ import annotations

from dataclasses import dataclass, replace
from typing import Callable, Iterator, Optional

from plain_rust.items import Form, Item, without
from plain_rust.tokens import Kind, Token, rust, skip

Path = tuple[str, ...]


@dataclass(frozen=True)
class Leaf:
    """One imported name: its path, and the name that it has here."""

    path: Path
    name: str


@dataclass(frozen=True)
class Tree:
    """An import: names that lead on, and either what is behind them in braces or a name of its own."""

    path: Path
    rename: Optional[str] = None
    branches: Optional[tuple[Tree, ...]] = None

    def leaves(self, before: Path = ()) -> Iterator[Leaf]:
        """Each imported name."""
        whole = before + self.path
        if self.branches is None:
            whole = whole[:-1] if whole[-1] == "self" else whole
            yield Leaf(whole, self.rename or whole[-1])
        for branch in self.branches or ():
            yield from branch.leaves(whole)

    def without(self, goes: Callable[[Leaf], bool], before: Path = ()) -> Optional[Tree]:
        """The tree without the names that go; nothing where none is left."""
        if self.branches is None:
            return None if goes(next(self.leaves(before))) else self
        left = [branch.without(goes, before + self.path) for branch in self.branches]
        branches = tuple(branch for branch in left if branch is not None)
        return replace(self, branches=branches) if branches else None

    def text(self) -> str:
        """The tree as it is written behind `use`."""
        text = "::".join(self.path)
        if self.branches is not None:
            inner = ", ".join(branch.text() for branch in self.branches)
            is_lone = len(self.branches) == 1 and self.branches[0].path != ("self",)
            text += ("::" if self.path else "") + (inner if is_lone else "{" + inner + "}")
        return text if self.rename is None else f"{text} as {self.rename}"


def parsed(tokens: list[Token], place: int) -> tuple[Tree, int]:
    """The tree that begins here, and the place behind it."""
    path: list[str] = []
    while True:
        place = skip(tokens, place)
        if place == len(tokens):
            return Tree(tuple(path)), place
        token = tokens[place]
        if token.is_word("as"):
            place = skip(tokens, place + 1)
            return Tree(tuple(path), tokens[place].text), place + 1
        if token.is_sign("{"):
            branches, place = branches_of(tokens, place + 1)
            return Tree(tuple(path), None, branches), place
        if token.kind is Kind.WORD or token.is_sign("*"):
            path.append(token.text)
        elif not token.is_sign(":"):
            return Tree(tuple(path)), place
        place += 1


def branches_of(tokens: list[Token], place: int) -> tuple[tuple[Tree, ...], int]:
    """The trees in the braces whose inside begins here, and the place behind the braces."""
    branches = []
    place = skip(tokens, place)
    while not tokens[place].is_sign("}"):
        branch, place = parsed(tokens, place)
        branches.append(branch)
        place = skip(tokens, place)
        place = skip(tokens, place + 1) if tokens[place].is_sign(",") else place
    return tuple(branches), place + 1


def tree_of(item: Item) -> Tree:
    """The tree of an import."""
    return parsed(item.head, item.place_of_word() + 1)[0]


def prune(items: list[Item], goes: Callable[[Leaf], bool]) -> tuple[list[Item], bool]:
    """The items with what goes out of their imports, and whether something went."""
    gone: list[Item] = []
    changed = False
    for item in items:
        if item.form is not Form.USE:
            continue
        tree = tree_of(item)
        left = tree.without(goes)
        if left is None:
            gone.append(item)
        elif left != tree:
            item.head = [*item.head[: item.place_of_word() + 1], *rust(" " + left.text())]
            changed = True
    return without(items, gone), changed or bool(gone)
