"""The structs and functions of the package, compared with the declarations that are proved and with the headers."""
from __future__ import annotations

import ctypes
import re
from typing import Any

import pytest

from smblease import _functions, _structs
from tests.c import layout
from tests.paths import TOP

COMMENT = re.compile(r"/\*.*?\*/", re.S)
PROTOTYPE = re.compile(r"^(\w[\w ]*?) (smblease_\w+)\(([^;{]*)\);", re.M)
STRUCT = re.compile(r"(?:const )?struct (smblease_\w+)( \*)?")
TYPES: dict[str, Any] = {
    "void": None, "bool": ctypes.c_bool, "size_t": ctypes.c_size_t, "uint8_t": ctypes.c_uint8, "uint32_t": ctypes.c_uint32,
    "uint64_t": ctypes.c_uint64, "const uint8_t *": ctypes.c_char_p, "uint8_t *": ctypes.POINTER(ctypes.c_char),
    "char *": ctypes.POINTER(ctypes.c_char), "uint64_t *": ctypes.POINTER(ctypes.c_uint64),
    "const uint64_t *": ctypes.POINTER(ctypes.c_uint64), "size_t *": ctypes.POINTER(ctypes.c_size_t),
}
DECLARED = layout.structs()


def class_of(name: str) -> Any:
    """The class that stands for a struct of this name in C."""
    return getattr(_structs, "".join(word.title() for word in name.split("_")[1:]), None)


def type_of(text: str) -> Any:
    struct = STRUCT.fullmatch(text)
    if not struct:
        return TYPES[text]
    return ctypes.POINTER(class_of(struct[1])) if struct[2] else class_of(struct[1])


def parameters(text: str) -> tuple[Any, ...]:
    if text == "void":
        return ()
    return tuple(type_of(re.sub(r"\w+$", "", " ".join(one.split())).strip()) for one in text.split(","))


def prototypes() -> dict[str, tuple[Any, tuple[Any, ...]]]:
    text = "".join(it.read_text(encoding="utf-8") for it in sorted((TOP / "include").glob("*.h")))
    found = PROTOTYPE.findall(COMMENT.sub("", text))
    return {name: (type_of(result), parameters(given)) for result, name, given in found}


@pytest.mark.parametrize("name", sorted(DECLARED))
def test_struct(name: str) -> None:
    found, fields = class_of(name), DECLARED[name]
    assert found is not None
    places, size = layout.places(fields)
    wanted = [(field.name, place, field.element * field.count) for field, place in zip(fields, places)]
    has = [(it, getattr(found, it).offset, getattr(found, it).size) for it, *_ in getattr(found, "_fields_")]
    assert has == wanted
    assert ctypes.sizeof(found) == size


def test_each_class_is_a_struct() -> None:
    has = {it.__name__ for it in vars(_structs).values() if getattr(it, "__module__", "") == _structs.__name__}
    assert has == {class_of(name).__name__ for name in DECLARED if class_of(name)}


def test_functions() -> None:
    wanted = prototypes()
    assert wanted and {f"smblease_{name}": signature for name, signature in _functions.FUNCTIONS.items()} == wanted
