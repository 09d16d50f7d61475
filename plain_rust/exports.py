"""Functions for C: each stays as one for Rust, and one for C stands beside it, which takes a pointer and a length for a slice."""

from __future__ import annotations

from dataclasses import dataclass
from typing import Iterator, Optional

from plain_rust.items import Form, Item, items_of
from plain_rust.sources import Module
from plain_rust.tokens import Kind, Token, before, rust, sign, skip, split_at_commas, text_of

MODULE = """

/// The functions of this module for C.
pub mod exported {{
{imports}{functions}}}
"""

FUNCTION = """
    /// [`super::{name}`] for C.
{safety}    #[unsafe(no_mangle)]
    pub {qualifier}extern "C" fn {name}({parameters}) {result} {{
        {reason}super::{name}({arguments})
    }}
"""

SAFETY = """    ///
    /// # Safety
    ///
    /// There are as many items at each pointer as the length after it says; nobody writes them meanwhile, nor reads them where
    /// they are written. A pointer is null only where the length is 0.
"""


@dataclass(frozen=True)
class Parameter:
    """A parameter as C gives it, and the argument that is made of it."""

    given: Optional[str]
    argument: str
    is_slice: bool


def is_exported(item: Item) -> bool:
    """Whether C can call a function."""
    return item.form is Form.FUNCTION and any(token.is_word("extern") for token in item.head[: item.place_of_word()])


def slice_of(types: list[Token]) -> Optional[tuple[bool, str]]:
    """Of a slice's type whether it is written, and the type of its items."""
    words = [token for token in types if not token.is_trivia and token.kind is not Kind.LIFETIME]
    is_written = len(words) > 1 and words[1].is_word("mut")
    opening = 2 if is_written else 1
    if not words[0].is_sign("&") or not words[opening].is_sign("[") or any(token.is_sign(";") for token in words):
        return None
    return is_written, text_of(words[opening + 1 : -1])


def parameter(part: list[Token]) -> Parameter:
    """What becomes of a parameter."""
    colon = next(place for place, token in enumerate(part) if token.is_sign(":"))
    name = next(token.text for token in reversed(part[:colon]) if token.kind is Kind.WORD)
    types = part[skip(part, colon + 1) :]
    if text_of(types).strip() == "Global":
        return Parameter(None, "std::alloc::Global", False)
    found = slice_of(types)
    if found is None:
        return Parameter(f"{name}: {text_of(types).strip()}", name, False)
    is_written, of_item = found
    pointer, call = ("*mut", "slice_mut") if is_written else ("*const", "slice")
    given = f"{name}: {pointer} {of_item}, {name}_length: usize"
    return Parameter(given, f"unsafe {{ std::c::{call}({name}, {name}_length) }}", True)


def parameters_of(item: Item) -> list[Parameter]:
    """All parameters of a function."""
    opening, end = item.parameters()
    return [parameter(part) for part in split_at_commas(item.head[opening + 1 : end])]


def for_c(item: Item) -> str:
    """The function for C."""
    found = parameters_of(item)
    has_slice = any(one.is_slice for one in found)
    return FUNCTION.format(
        name=item.name,
        safety=SAFETY if has_slice else "",
        qualifier="unsafe " if has_slice else "",
        parameters=", ".join(one.given for one in found if one.given is not None),
        result=text_of(item.result()).strip(),
        reason="// SAFETY: the caller's word.\n        " if has_slice else "",
        arguments=", ".join(one.argument for one in found),
    )


def types_in(item: Item) -> Iterator[str]:
    """The names of types in a function's head, but for the allocator."""
    for token in item.head:
        if token.kind is Kind.WORD and token.text[0].isupper() and token.text != "Global":
            yield token.text


def for_rust(item: Item) -> None:
    """Makes the function one of Rust alone."""
    place = next(place for place, token in enumerate(item.head) if token.is_word("extern"))
    item.head = item.head[: before(item.head, place) + 1] + [sign(" ")] + item.head[item.place_of_word() :]
    item.attributes = [one for one in item.attributes if one.name != "unsafe"]


def write_exports(module: Module) -> None:
    """Puts a module of functions for C behind those of a module that C can call."""
    exported = [item for item in module.items if is_exported(item)]
    if not exported:
        return
    names = sorted({name for item in exported for name in types_in(item)})
    imports = f"    use super::{{{', '.join(names)}}};\n" if names else ""
    source = MODULE.format(imports=imports, functions="".join(for_c(item) for item in exported))
    for item in exported:
        for_rust(item)
    module.items += [one for one in items_of(module.file, rust(source)) if one.form is not Form.REST]
