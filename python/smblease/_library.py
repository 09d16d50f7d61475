"""Finds libsmblease, declares its functions, and gives its writers a room."""
from __future__ import annotations

import ctypes
import os
from typing import Any, Iterator

from smblease import _functions
from smblease.version import MAJOR, MINOR

VARIABLE = "SMBLEASE_LIBRARY"
REMEDY = ("To have it, run `make install` or `pip install .` at the top of the repository, or set"
          f" {VARIABLE} to the path of its libsmblease.so")
SONAME = f"libsmblease.so.{MAJOR}"
HERE = os.path.dirname(os.path.realpath(__file__))
# What an installed package brings, and where the package stands in the repository.
BROUGHT = os.path.join(HERE, "libsmblease.so")
TOP = os.path.dirname(os.path.dirname(HERE))
PROVED = [os.path.join(TOP, folder, "libsmblease.so") for folder in ("out/proved", "dist/x86_64-linux")]
PLAIN = os.path.join(TOP, "out/plain", "libsmblease.so")


def _made() -> list[str]:
    """The libraries of the repository: the proved ones, the newest first, and what cargo built, which can be asked for alone."""
    wanted = [] if os.environ.get("SMBLEASE_BUILD") == "plain" else PROVED
    found = sorted((it for it in wanted if os.path.exists(it)), key=os.path.getmtime, reverse=True)
    return found + ([PLAIN] if os.path.exists(PLAIN) else [])


def _places() -> Iterator[str]:
    named = os.environ.get(VARIABLE)
    if named:
        yield named
        return
    if os.path.exists(BROUGHT):
        yield BROUGHT
    if os.path.exists(os.path.join(TOP, "include", "smblease.h")):
        yield from _made()
    yield SONAME


def _opened() -> tuple[str, ctypes.CDLL]:
    """Where the library was found, and itself."""
    said = []
    for place in _places():
        try:
            return place, ctypes.CDLL(place)
        except OSError as error:
            said.append(str(error))
    raise ImportError(f"libsmblease can't be loaded: {'; '.join(said)}. {REMEDY}")


def _check_version(place: str, library: ctypes.CDLL) -> None:
    has = library.smblease_version()
    if has.major != MAJOR or has.minor < MINOR:
        raise ImportError(f"{place} has version {has.major}.{has.minor}.{has.patch}; {MAJOR}.{MINOR} is needed. {REMEDY}")


def _declared(place: str, library: ctypes.CDLL) -> ctypes.CDLL:
    for name, (result, arguments) in _functions.FUNCTIONS.items():
        try:
            function = getattr(library, f"smblease_{name}")
        except AttributeError:
            raise ImportError(f"{place} has no smblease_{name}; libsmblease is needed. {REMEDY}") from None
        function.restype, function.argtypes = result, arguments
    _check_version(place, library)
    return library


library = _declared(*_opened())


def in_words(name: str) -> Any:
    """A function of the library that is given numbers which were found to fit, and addresses of structs. Where each of them takes
    a word, as on all machines of 64 bits, ctypes passes them sooner than those of the function's own types."""
    result, arguments = _functions.FUNCTIONS[name]
    is_wide = ctypes.sizeof(ctypes.c_void_p) == ctypes.sizeof(ctypes.c_uint64)
    function = library[f"smblease_{name}"]
    function.restype = result
    function.argtypes = [ctypes.c_void_p if is_wide or hasattr(it, "contents") else it for it in arguments]
    return function


def written(write: Any, message: ctypes.Structure, most: int) -> bytes:
    """What a writer of the library writes of a struct; it takes `most` bytes at most."""
    room = ctypes.create_string_buffer(most)
    length = write(ctypes.byref(message), room, most)
    return room.raw[:length]
