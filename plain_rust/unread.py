"""What contracts alone speak of, and no code reads: values, parameters, fields of variants, functions and imports."""

from __future__ import annotations

from collections import Counter, defaultdict
from dataclasses import dataclass
from typing import Iterable, Iterator, Mapping, Optional, Sequence

from plain_rust.constructs import NEEDED_BY
from plain_rust.index import Index
from plain_rust.items import Form, Item, every, without
from plain_rust.laws import drop_empty_modules, path_at
from plain_rust.patterns import reads
from plain_rust.reading import is_called, is_idle, is_plain, means, places_of, says
from plain_rust.sources import Crate, Module, Naming
from plain_rust.tokens import Kind, Token, before, closing, rust, sign, skip, split_at_commas
from plain_rust.uses import Leaf, prune
from plain_rust.variants import drop_fields, drop_names

# What can't be used without its name.
NAMED = (Form.CONST, Form.STATIC, Form.STRUCT, Form.ENUM, Form.TYPE, Form.FUNCTION)


@dataclass(frozen=True)
class Function:
    """A function with its module, and the type that it is a method of."""

    module: Module
    item: Item
    owner: Optional[str]

    @property
    def body(self) -> list[Token]:
        """What stands between its braces."""
        return self.item.body or []

    @property
    def arity(self) -> int:
        """How many parameters it has, `self` among them."""
        opening, end = self.item.parameters()
        return len(parts(self.item.head[opening + 1 : end]))

    def is_use(self, naming: Naming, module: Module, body: list[Token], place: int) -> bool:
        """Whether a word of its name means it, in a body of this module."""
        path, start = path_at(body, place)
        leading = before(body, start)
        is_method = leading >= 0 and body[leading].is_sign(".")
        if self.owner is not None:
            return (is_method and is_called(body, place)) or (len(path) > 1 and path[-2] in ("Self", self.owner))
        return not is_method and naming.function(module, path) == (*self.module.whole, self.item.name)


@dataclass(frozen=True)
class Call:
    """A call in the body of a function: where its name is, and whether a value stands before it with a dot."""

    item: Item
    place: int
    is_method: bool

    @property
    def opening(self) -> int:
        """Where its parentheses open."""
        return skip(self.item.body or [], self.place + 1)

    @property
    def arguments(self) -> list[list[Token]]:
        """What stands in its parentheses."""
        body = self.item.body or []
        return parts(body[self.opening + 1 : closing(body, self.opening)])

    @property
    def arity(self) -> int:
        """For how many parameters it gives a value."""
        return len(self.arguments) + self.is_method

    def fits(self, function: Function) -> bool:
        """Whether it may be one of this function."""
        return is_called(self.item.body or [], self.place) and self.arity == function.arity

    def argument(self, index: int) -> list[Token]:
        """What it gives for the parameter of this place."""
        return self.arguments[index - self.is_method]

    def drop(self, index: int) -> None:
        """Takes out what it gives for the parameter of this place."""
        self.item.body = without_part(self.item.body or [], self.opening, index - self.is_method)


def functions(module: Module) -> Iterator[Function]:
    """All functions of a module that are of no trait."""
    yield from (Function(module, item, None) for item in module.functions())
    for item in every(module.items):
        if item.form is Form.IMPL and not any(token.is_word("for") for token in item.head):
            owner = [token.text for token in item.head[item.place_of_word() + 1 :] if token.text[0].isupper()][0]
            yield from (Function(module, one, owner) for one in item.items or () if one.form is Form.FUNCTION)


def parts(tokens: Sequence[Token]) -> list[list[Token]]:
    """What stands between commas, without the trivia around it."""
    return [part[skip(part, 0) : before(part, len(part)) + 1] for part in split_at_commas(tokens)]


def joined(found: Iterable[Sequence[Token]]) -> list[Token]:
    """The parts with commas between them."""
    made: list[Token] = []
    for part in found:
        made += ([sign(","), *rust(" ")] if made else []) + list(part)
    return made


def without_part(tokens: list[Token], opening: int, index: int) -> list[Token]:
    """The tokens without one of the parts in these brackets."""
    end = closing(tokens, opening)
    inner = parts(tokens[opening + 1 : end])
    return tokens[: opening + 1] + joined(inner[:index] + inner[index + 1 :]) + tokens[end:]


def name_of(parameter: Sequence[Token]) -> Optional[str]:
    """The name of a parameter; nothing where it is `self`, or begins as what isn't meant to be read."""
    said = [token for token in parameter if not token.is_trivia and not token.is_word("mut")]
    is_named = len(said) > 1 and said[1].is_sign(":") and not said[0].text.startswith("_")
    return said[0].text if is_named else None


def unread_parameters(item: Item) -> list[int]:
    """The places of the parameters that a function doesn't read, from the last on."""
    opening, end = item.parameters()
    found = [name_of(part) for part in parts(item.head[opening + 1 : end])]
    return [index for index, name in enumerate(found) if name is not None and not reads(item.body or [], name)][::-1]


def without_value(body: list[Token]) -> Optional[list[Token]]:
    """A body without a value that has a name which nothing reads, and only looks at others; nothing where it has none."""
    for place in places_of(body, "let"):
        named = skip(body, place + 1)
        equals = skip(body, named + 1)
        if body[named].text.startswith("_") or not body[equals].is_sign("="):
            continue
        end = next(at for at in range(equals, len(body)) if body[at].is_sign(";"))
        is_read = says([*body[:named], *body[named + 1 :]], body[named].text)
        if not is_read and is_idle(body[equals + 1 : end]):
            return body[: before(body, place) + 1] + body[end + 1 :]
    return None


def is_empty_impl(item: Item) -> bool:
    """Whether an item gives a type no methods."""
    is_of_trait = any(token.is_word("for") for token in item.head)
    return item.form is Form.IMPL and not is_of_trait and all(one.form is Form.REST for one in item.items or ())


class Unread:
    """Takes out what no code reads."""

    def __init__(self, crates: Mapping[str, Crate]) -> None:
        self.crates = crates
        self.naming = Naming(crates)
        self.modules = [module for crate in crates.values() for module in crate.modules.values()]
        self.given = {name: given_on(crate) for name, crate in crates.items()}
        self.index = Index(self.modules)
        self.named = self.functions_by_name()
        self.idle = {name: idle_names(crate) for name, crate in crates.items()}

    def functions_by_name(self) -> dict[str, list[Function]]:
        """All functions by their names."""
        found: dict[str, list[Function]] = defaultdict(list)
        for function in (one for module in self.modules for one in functions(module)):
            found[function.item.name].append(function)
        return found

    def is_shown(self, module: Module, name: str, item: Item) -> bool:
        """Whether others than its crate may name an item, or the type of this name that it is a method of."""
        is_public = item.is_public and not item.head[skip(item.head, skip(item.head, 0) + 1)].is_sign("(")
        return is_public and (name in self.given[module.crate] or self.crates[module.crate].shows(module.path))

    def is_item_shown(self, module: Module, item: Item) -> bool:
        """Whether others than its crate may name an item."""
        return self.is_shown(module, item.name, item)

    def may_name(self, module: Module, function: Function) -> bool:
        """Whether a module may name a function."""
        return module is function.module or (function.item.is_public and module.crate == function.module.crate)

    def candidates(self) -> Iterator[Function]:
        """The functions that only their own crate may call."""
        for function in (one for module in self.modules for one in functions(module)):
            name = function.owner or function.item.name
            is_called_elsewhere = self.is_shown(function.module, name, function.item) or function.item.is_test
            if function.item.body is not None and not is_called_elsewhere:
                yield function

    def calls(self, function: Function) -> Optional[list[Call]]:
        """Each call of a function, from the last on; nothing where its name may mean another, or it is no call."""
        name, found = function.item.name, []
        methods = [one for one in self.named[name] if one.owner is not None and self.may_name(one.module, function)]
        if function.owner is not None and [one.arity for one in methods].count(function.arity) > 1:
            return None
        for module, item in self.index.saying(name):
            body = item.body or []
            uses = [at for at in places_of(body, name) if function.is_use(self.naming, module, body, at)]
            for place in reversed(uses if self.may_name(module, function) else []):
                if not is_called(body, place):
                    return None
                call = Call(item, place, body[before(body, place)].is_sign("."))
                if call.arity == function.arity:
                    found.append(call)
        return found

    def drop_parameter(self, function: Function, index: int) -> bool:
        """Takes a parameter out of a function and its calls, where each gives it a value that is only named."""
        calls = self.calls(function)
        if calls is None or not all(is_plain(call.argument(index), self.idle[function.module.crate]) for call in calls):
            return False
        for call in calls:
            call.drop(index)
        function.item.head = without_part(function.item.head, function.item.parameters()[0], index)
        return True

    def drop_parameters(self) -> bool:
        """Takes out parameters that no body reads; whether there was one."""
        found = [(function, index) for function in self.candidates() for index in unread_parameters(function.item)]
        return sum(self.drop_parameter(function, index) for function, index in found) > 0

    def drop_functions(self) -> bool:
        """Takes out functions that nothing names any more; whether there was one."""
        said = {name: words_of(crate) for name, crate in self.crates.items()}
        gone = [function.item for function in self.candidates() if not self.is_named(function, said[function.module.crate])]
        for module in self.modules:
            for item in every(module.items):
                item.items = None if item.items is None else without(item.items, gone)
            module.items = without(module.items, gone + [item for item in module.items if is_empty_impl(item)])
        return bool(gone)

    def is_named(self, function: Function, said: Counter[str]) -> bool:
        """Whether a function is a program's or has attributes, or anything but itself may name it, where all words are these."""
        name = function.item.name
        if name == "main" or function.item.attributes:
            return True
        is_said = said[name] > sum(token.is_word(name) for token in function.item.tokens())
        return is_said and (function.owner is None or self.is_method_named(function))

    def is_method_named(self, method: Function) -> bool:
        """Whether something says the name of a method by a path, or calls one of that name with as many values."""
        for item in (item for module, item in self.index.saying(method.item.name) if self.may_name(module, method)):
            body = item.body or []
            for place in places_of(body, method.item.name):
                path, start = path_at(body, place)
                is_dotted = start > 0 and body[before(body, start)].is_sign(".")
                if len(path) > 1 or (is_dotted and Call(item, place, True).fits(method)):
                    return True
        return False

    def drop_values(self) -> bool:
        """Takes out values that have a name and aren't read; whether there was one."""
        changed = False
        for _, item in self.index.saying("let"):
            left = without_value(item.body or [])
            if left is not None:
                item.body, changed = left, True
        return changed

    def drop_fields(self) -> bool:
        """Takes out fields of variants that nothing reads; whether there was one."""
        return drop_fields(self.modules, self.index, self.is_item_shown)

    def drop_imports(self, module: Module, items: list[Item]) -> list[Item]:
        """The items of a module, or of one within it, without imports of items that nothing says. That of a trait stays where it
        has methods: they may be called."""
        for item in items:
            if item.form is Form.MODULE and item.items is not None:
                item.items = self.drop_imports(module, item.items)
        said = [token for item in items if item.form is not Form.USE for token in item.tokens()]
        own = [leaf for item in items if item.form is Form.USE and not item.is_public for leaf in leaves(item)]
        gone = {leaf for leaf in own if not means(said, leaf.name) and self.is_needless(module, said, leaf)}
        return prune(items, gone.__contains__)[0]

    def is_needless(self, module: Module, said: Sequence[Token], leaf: Leaf) -> bool:
        """Whether an import is of what can't be used without its name, or without a word of which these say none."""
        if leaf.path in NEEDED_BY:
            return not any(says(said, word) for word in NEEDED_BY[leaf.path])
        return self.naming.is_item(module, leaf.path, NAMED)

    def drop(self) -> None:
        """Takes out all of it: what goes may have been the last that read something else."""
        while any([self.drop_values(), self.drop_parameters(), drop_names(self.index), self.drop_fields()]):
            self.index = Index(self.modules)
        while self.drop_functions():
            self.index = Index(self.modules)
        for module in self.modules:
            module.items = self.drop_imports(module, module.items)
        while drop_empty_modules(self.crates):
            pass


def given_on(crate: Crate) -> frozenset[str]:
    """The names that a crate's root gives on."""
    given = (one for one in crate.modules[()].items if one.form is Form.USE and one.is_public)
    return frozenset(leaf.name for one in given for leaf in leaves(one))


def idle_names(crate: Crate) -> frozenset[str]:
    """The names of a crate's methods without arguments that only look at values, each of that name."""
    found = [one for module in crate.modules.values() for one in functions(module) if one.owner is not None and one.arity == 1]
    busy = {one.item.name for one in found if not is_idle(one.body) or any(token.is_word("mut") for token in one.item.head)}
    return frozenset(one.item.name for one in found) - busy


def words_of(crate: Crate) -> Counter[str]:
    """How often a crate says each word."""
    items = (item for module in crate.modules.values() for item in every(module.items) if item.items is None)
    return Counter(token.text for item in items for token in item.tokens() if token.kind is Kind.WORD)


def leaves(item: Item) -> list[Leaf]:
    """The names that an import has."""
    return list(Module("", "", (), [item]).imports())
