"""Where the words of all functions stand, to look at few of them."""

from __future__ import annotations

from collections import defaultdict
from typing import Iterable, Sequence

from plain_rust.items import Form, Item, every
from plain_rust.sources import Module
from plain_rust.tokens import Kind

Place = tuple[Module, Item]


class Index:
    """The functions by the words in their bodies, as these were when it was made."""

    def __init__(self, modules: Iterable[Module]) -> None:
        self.functions: list[Place] = []
        self.by_word: dict[str, list[Place]] = defaultdict(list)
        for module in modules:
            for item in every(module.items):
                if item.form is Form.FUNCTION and item.body is not None:
                    self.add((module, item))

    def add(self, place: Place) -> None:
        """Adds a function."""
        self.functions.append(place)
        for word in {token.text for token in place[1].body or () if token.kind is Kind.WORD}:
            self.by_word[word].append(place)

    def saying(self, word: str) -> Sequence[Place]:
        """The functions whose bodies say a word."""
        return self.by_word.get(word, ())
