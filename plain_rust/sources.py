"""The crates of the repository, and the modules that they are made of."""

from __future__ import annotations

from dataclasses import dataclass, field
from pathlib import Path
from typing import Iterator, Mapping, Optional, Sequence

from plain_rust.faults import NotKnown
from plain_rust.items import Form, Item, items_of
from plain_rust.tokens import tokens_of
from plain_rust.uses import Leaf, Path as Names, tree_of


# No name leads through more imports.
MOST_STEPS = 9


@dataclass
class Module:
    """A file of a crate: its place in the repository, its path in the crate and its items."""

    file: str
    crate: str
    path: Names
    items: list[Item]

    @property
    def whole(self) -> Names:
        """The crate's name and the path."""
        return (self.crate, *self.path)

    @property
    def is_empty(self) -> bool:
        """Whether nothing is left in it but imports of its own."""
        return all(item.form is Form.REST or (item.form is Form.USE and not item.is_public) for item in self.items)

    @property
    def is_test(self) -> bool:
        """Whether it lies below a folder of tests."""
        return "tests" in self.path

    def functions(self) -> Iterator[Item]:
        """Its functions that stand in no `impl`."""
        return (item for item in self.items if item.form is Form.FUNCTION)

    def imports(self) -> Iterator[Leaf]:
        """The names that it imports."""
        for item in self.items:
            if item.form is Form.USE:
                yield from tree_of(item).leaves()

    def refuse(self, item: Item, what: str) -> NotKnown:
        """The fault of an item of this file."""
        return NotKnown(self.file, item.line, what)


@dataclass
class Crate:
    """A crate: what it stands on, and its modules by their path."""

    name: str
    is_static_library: bool
    dependencies: tuple[str, ...]
    modules: dict[Names, Module] = field(default_factory=dict)

    @property
    def is_program(self) -> bool:
        """Whether it is a program."""
        return self.modules[()].file.endswith("/main.rt")

    def shows(self, path: Names) -> bool:
        """Whether others may name what is in the module of this path: each module that leads there is public."""
        if not path:
            return True
        declared = [item for item in self.modules[path[:-1]].items if item.form is Form.MODULE and item.name == path[-1]]
        return all(item.is_public for item in declared) and self.shows(path[:-1])


def crate_line(line: str) -> Optional[Crate]:
    """The crate of a line of crates.txt, without modules; nothing where the line has none."""
    head, _, dependencies = line.partition("#")[0].partition(":")
    words = head.split()
    return Crate(words[0], "staticlib" in words[1:], tuple(dependencies.split())) if words else None


def path_of(file: Path) -> Names:
    """The path in its crate of a file, by its place below `src`."""
    names = file.with_suffix("").parts
    return () if names in (("lib",), ("main",)) else names


def read_modules(repository: Path, crate: Crate) -> None:
    """Reads all files of the crate."""
    source = repository / "crates" / crate.name / "src"
    for file in sorted(source.rglob("*.rt")):
        shown = str(file.relative_to(repository))
        items = items_of(shown, tokens_of(shown, file.read_text(encoding="utf-8")))
        path = path_of(file.relative_to(source))
        crate.modules[path] = Module(shown, crate.name, path, items)


def read_crates(repository: Path) -> dict[str, Crate]:
    """All crates of crates.txt with their modules, each behind those that it stands on."""
    lines = (repository / "crates.txt").read_text(encoding="utf-8").splitlines()
    crates = {crate.name: crate for crate in map(crate_line, lines) if crate is not None}
    for crate in crates.values():
        read_modules(repository, crate)
    return crates


@dataclass
class Naming:
    """Says what a name in a module is, through imports and what is given on."""

    crates: Mapping[str, Crate]

    def module(self, path: Names) -> Optional[Module]:
        """The module of this crate and path."""
        crate = self.crates.get(path[0]) if path else None
        return crate.modules.get(path[1:]) if crate else None

    def absolute(self, module: Module, path: Names) -> Names:
        """The path from its crate on, as it is written in the module."""
        first, rest = path[0], path[1:]
        if first == "crate":
            return (module.crate, *rest)
        if first in ("self", "super"):
            above = module.whole if first == "self" else module.whole[:-1]
            return self.absolute_below(above, rest)
        if self.module((*module.whole, first)) is not None:
            return (*module.whole, *path)
        return path

    def absolute_below(self, above: Names, rest: Names) -> Names:
        """The path whose beginning is known, behind further words `super`."""
        while rest and rest[0] == "super":
            above, rest = above[:-1], rest[1:]
        return (*above, *rest)

    def is_item(self, module: Module, path: Names, forms: Sequence[Form]) -> bool:
        """Whether a path in a module means an item of one of these forms, or a variant."""
        whole = self.absolute(module, path)
        for _ in range(MOST_STEPS):
            there = self.module(whole[:-1])
            if there is None:
                enum = self.module(whole[:-2])
                return enum is not None and any(item.form is Form.ENUM and item.name == whole[-2] for item in enum.items)
            if any(item.form in forms and item.name == whole[-1] for item in there.items):
                return True
            found = next((leaf.path for leaf in there.imports() if leaf.name == whole[-1]), None)
            if found is None:
                return False
            whole = self.absolute(there, found)
        return False

    def function(self, module: Module, path: Names, seen: Sequence[tuple[Names, Names]] = ()) -> Optional[Names]:
        """The crate, the path and the name of the function that a path in a module means."""
        if (module.whole, path) in seen:
            return None
        if len(path) > 1:
            whole = self.absolute(module, path)
            there = self.module(whole[:-1])
            return self.function(there, whole[-1:], (*seen, (module.whole, path))) if there else None
        if any(item.name == path[0] for item in module.functions()):
            return (*module.whole, *path)
        found = next((leaf.path for leaf in module.imports() if leaf.name == path[0]), None)
        if found is None or len(found) < 2:
            return None
        return self.function(module, found, (*seen, (module.whole, path)))
