"""The structs that the library shares with C, read from the declarations that are proved.

Each such struct is declared in a crate that is a static library, with `repr(C)`. From that declaration come the names, types
and places of its fields, as C lays them out. The name in C is the one in the table below, or else a word of the declaration's
comment: `struct NAME`.
"""
from __future__ import annotations

import re
import subprocess
from collections.abc import Iterator, Sequence
from dataclasses import dataclass
from pathlib import Path

from tests.paths import TOP

# (the library is built for processors whose pointers have 8 bytes)
SIZES = {"u8": 1, "u16": 2, "u32": 4, "u64": 8, "usize": 8, "*mut u8": 8}
# The structs of the handles. Some are declared in several crates, and have to be the same there.
NAMES = {
    "ClientHandle": "smblease_client", "ServerHandle": "smblease_server", "FilesHandle": "smblease_files",
    "ManagerHandle": "smblease_manager", "VersionsHandle": "smblease_versions",
    "ClientVersionsHandle": "smblease_client_versions",
    "ClientGuid": "smblease_guid", "KeyBytes": "smblease_key", "MaybeKey": "smblease_maybe_key",
    "BreakMessage": "smblease_break_message", "AckMessage": "smblease_ack_message",
    "ClientOpen": "smblease_open_terms", "ClientAnswer": "smblease_answer", "ClientRequest": "smblease_client_request",
    "ClientNote": "smblease_note", "ServerOut": "smblease_server_out",
}
# A handle's pointer has a name of its own in C.
FIELDS = {"at": "state"}
DECLARED = re.compile(r"((?:^///.*\n)*)^#\[repr\(C\)\]\n(?:#\[.*\]\n)*pub struct (\w+) \{\n((?:.*\n)*?)\}", re.M)
NAMED = re.compile(r"`struct (smblease_\w+)`")
FIELD = re.compile(r"(?:pub )?(\w+): (?:\[(\w+); (\d+)\]|(\w+|\*mut u8)),")


@dataclass
class Field:
    name: str
    element: int
    count: int


def sources() -> Iterator[str]:
    crates = subprocess.run([TOP / "tools/c_crates"], stdout=subprocess.PIPE, check=True).stdout.decode().split()
    for crate in crates:
        for path in sorted((TOP / "crates" / crate / "src").rglob("*.rt")):
            yield path.read_text(encoding="utf-8")


def name_in_c(comment: str, name: str) -> str:
    named = NAMED.search(comment)
    found = NAMES.get(name) or (named and named[1])
    if not found:
        raise ValueError(f"no name in C is known of the struct {name}")
    return found


def as_field(name: str, within: list[Field]) -> Field:
    """A struct that is a field of another one: so many of its widest element."""
    size = places(within)[1]
    widest = max(it.element for it in within)
    return Field(name, widest, size // widest)


def fields(name: str, body: str, known: dict[str, list[Field]]) -> list[Field]:
    """The fields of a declaration, some of which may be structs that are known. Ghost ones are for proofs, and take no room."""
    found = []
    for line in map(str.strip, body.splitlines()):
        if not line or line.startswith("//") or "ghost " in line:
            continue
        field = FIELD.fullmatch(line)
        if not field:
            raise ValueError(f"a field of {name} can't be read: {line}")
        if field[4] in known:
            found.append(as_field(field[1], known[field[4]]))
            continue
        found.append(Field(FIELDS.get(field[1], field[1]), SIZES[field[2] or field[4]], int(field[3] or 1)))
    return found


def structs() -> dict[str, list[Field]]:
    found: dict[str, list[Field]] = {}
    known: dict[str, list[Field]] = {}
    for comment, name, body in (declared for text in sources() for declared in DECLARED.findall(text)):
        has = known[name] = fields(name, body, known)
        if found.setdefault(name_in_c(comment, name), has) != has:
            raise ValueError(f"{name} isn't declared as another struct of this name in C")
    return found


def places(fields_of_one: list[Field]) -> tuple[list[int], int]:
    """Where C puts each field, and the size of the whole."""
    place, found, most = 0, [], 1
    for field in fields_of_one:
        place += -place % field.element
        found.append(place)
        place += field.element * field.count
        most = max(most, field.element)
    return found, place + -place % most


def declared_in(headers: Sequence[Path]) -> list[str]:
    """The structs that the headers declare."""
    text = "".join(it.read_text(encoding="utf-8") for it in headers)
    return sorted(re.findall(r"^struct (smblease_\w+) \{", text, re.M))


def assertions(headers: Sequence[Path]) -> str:
    """A program in C that compiles only where each struct of the headers has the fields and the size that it should have."""
    lines = [*(f"#include <{it.name}>" for it in headers), "#define HOLDS(name, test) typedef char name[(test) ? 1 : -1]"]
    for name, fields_of_one in sorted(structs().items()):
        found, size = places(fields_of_one)
        lines.append(f"HOLDS(size_of_{name}, sizeof(struct {name}) == {size});")
        for field, place in zip(fields_of_one, found):
            both = f"offsetof(struct {name}, {field.name}) == {place}"
            both += f" && sizeof(((struct {name} *)0)->{field.name}) == {field.element * field.count}"
            lines.append(f"HOLDS(place_of_{name}_{field.name}, {both});")
    return "\n".join([*lines, "int main(void) { return 0; }", ""])
