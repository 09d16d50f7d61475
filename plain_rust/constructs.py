"""The table: every construct of Rattle that is no plain Rust, and every name that a source may use where there is a choice.

What isn't here is refused with its file and line, so that nothing new passes through by chance.
"""

from __future__ import annotations

from dataclasses import dataclass
from enum import Enum, auto
from typing import Iterable, Mapping


class Fate(Enum):
    """What becomes of a construct."""

    KEPT = auto()
    DROPPED = auto()
    REWRITTEN = auto()


@dataclass(frozen=True)
class Construct:
    """A construct with what becomes of it, and why."""

    name: str
    fate: Fate
    why: str


def table(*constructs: Construct) -> Mapping[str, Construct]:
    """The constructs by their names."""
    return {one.name: one for one in constructs}


def kept(why: str, *names: str) -> Iterable[Construct]:
    """Constructs that stay as they are, for one reason."""
    return (Construct(name, Fate.KEPT, why) for name in names)


def dropped(why: str, *names: str) -> Iterable[Construct]:
    """Constructs that go, for one reason."""
    return (Construct(name, Fate.DROPPED, why) for name in names)


def rewritten(why: str, *names: str) -> Iterable[Construct]:
    """Constructs that are written otherwise, for one reason."""
    return (Construct(name, Fate.REWRITTEN, why) for name in names)


CLAUSES = table(*dropped("a contract is proved, and does nothing", "requires", "ensures"))

# `use` is an import of definitions; the others are members of an `impl` or of a struct that the prover alone sees.
GHOSTS = table(
    *dropped(
        "the prover alone sees it",
        *("use", "Value", "view", "invariant", "inverse", "also_owns", "value", "held", "items", "remaining", "next_gives"),
        *("fits", "from_gives", "laws", "eq", "partial_cmp", "cmp", "matches_eq", "matches_partial_cmp", "respects_eq"),
        *("hash_input", "output", "total", "table", "set_of", "exact"),
    )
)

TRAITS = table(*dropped("it says what a value is in definitions", "Model"))

BOUNDS = table(*dropped("every type may be dropped", "Drop"))

ATTRIBUTES = table(
    *dropped("it is for the prover", "tactic", "cycle"),
    *rewritten("derives of the prover go, and errors are written out", "derive", "error"),
    *rewritten("C is given pointers and lengths in place of slices", "unsafe"),
    *kept("Rust's own", "cfg", "doc", "inline", "must_use", "repr"),
    *rewritten("a test takes no runtime, and fails by a panic", "test"),
)

DERIVES = table(
    *dropped("every type may be dropped", "Drop"),
    *rewritten("Display and Error are written out", "Error"),
    *kept("Rust's own", "Copy", "Debug", "PartialEq", "Eq", "PartialOrd", "Ord", "Hash"),
    *kept("beside Copy; a clone that may fail isn't written here", "Clone"),
)

MACROS = table(
    *dropped("it is proved, and does nothing", "prove"),
    *rewritten("the runtime that a failed assertion ends by isn't named", "assert", "assert_eq", "assert_ne"),
    *kept("smblease_std has it", "format", "vec", "print", "println"),
    *kept("Rust's own", "matches", "write", "writeln", "macro_rules"),
    *kept("a crate's own", "line", "plain"),
    *kept("smblease_std has it", "bitflag_items"),
)

# The names that Rattle's prelude gives a module without an import.
PRELUDE = frozenset(("AllocGlobal", "Box", "Eprint", "HostRuntime", "Input", "Print", "String", "Vec"))
PRELUDE_MACROS = frozenset(("format", "vec", "print", "println"))

# Where the crates stand that aren't this repository's: they are Cargo's own, or calls of `smblease_std` over Cargo's own.
OUTSIDE: Mapping[str, str] = {
    "arrayvec": "arrayvec",
    "bitflags": "std::ports::bitflags",
    "byteorder": "byteorder",
    "bytes": "std::ports::bytes",
    "clap": "crate::ports::clap",
    "hex": "std::ports::hex",
    "json": "std::ports::json",
    "memchr": "memchr",
    "sha2": "sha2",
    "uuid": "std::ports::uuid",
}
# Crates of the kit that nothing of plain Rust asks for.
WITHOUT = frozenset(("core", "std_alloc", "thiserror"))

# The methods that change nothing, end, and can't fail.
READS = frozenset(("as_slice", "iter", "len"))

# Imports of Rust's own, or of `smblease_std`, that code needs only where it says one of these words: a text has the methods of
# `Write` itself.
NEEDED_BY: Mapping[tuple[str, ...], tuple[str, ...]] = {
    ("std", "alloc", "AllocError"): (),
    ("std", "convert", "AsSlice"): (),
    ("std", "fmt", "Write"): ("ArrayString",),
    ("std", "process", "Abort"): (),
}

# The lints that are rustc's.
RUSTC = frozenset(("missing_docs",))
# What rustc and clippy would say of the modules that are made, and why they don't.
LINTS = table(
    *kept("fields are told where their struct is", "missing_docs"),
    *kept(
        "the form that the prover takes",
        *("assertions_on_constants", "collapsible_if", "collapsible_match", "explicit_counter_loop", "len_zero"),
        *("manual_contains", "manual_find", "manual_is_multiple_of", "manual_map", "manual_ok_err", "manual_range_contains"),
        *("manual_range_patterns", "manual_unwrap_or", "manual_unwrap_or_default", "match_like_matches_macro"),
        *("needless_borrows_for_generic_args", "needless_lifetimes", "needless_range_loop"),
        *("needless_return_with_question_mark", "nonminimal_bool", "question_mark"),
        *("redundant_pattern_matching", "should_implement_trait", "single_match", "too_many_arguments", "type_complexity"),
        "write_with_newline",
    ),
)
