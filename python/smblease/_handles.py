"""What client and server machines have in common: a handle, which is freed once, and a lock."""
from __future__ import annotations

import contextlib
import ctypes
import enum
import threading
import weakref
from functools import partial
from types import TracebackType
from typing import Any, Callable, Generic, Iterator, List, Optional, Tuple, Type, TypeVar

from smblease.faults import MachineLost

Self = TypeVar("Self", bound="Handle[Any]")
Struct = TypeVar("Struct", bound=ctypes.Structure)
Part = TypeVar("Part", bound=ctypes.Structure)


class Outcome(enum.IntEnum):
    """enum smblease_outcome"""

    DONE = 0
    NO_MEMORY = 1
    LOST = 2
    NONE = 3
    NO_SUCH = 4
    DAMAGED = 5
    UNLAWFUL = 6


def check(outcome: int, name: str) -> None:
    """Raises what stands for an outcome that isn't DONE; `name` says of what."""
    if outcome == Outcome.NO_MEMORY:
        raise MemoryError(f"there is no memory for a call of the {name}")
    if outcome == Outcome.LOST:
        raise MachineLost(f"memory ran out within a call of the {name}, which is lost")
    if outcome == Outcome.NONE:
        raise ValueError(f"the {name} is closed")
    if outcome == Outcome.NO_SUCH:
        raise ValueError(f"a number stands for nothing of the {name}")


def with_bytes(read: Callable[..., int], struct: Struct, name: str) -> Tuple[Struct, bytes]:
    """Has a struct with a field `length` filled, and a room of so many bytes: a first call without a room says how many."""
    check(read(ctypes.byref(struct), None, 0), name)
    length = int(getattr(struct, "length"))
    if not length:
        return struct, b""
    room = ctypes.create_string_buffer(length)
    check(read(ctypes.byref(struct), room, length), name)
    return struct, room.raw


class Handle(Generic[Struct]):
    """A machine. Its methods may be called by any thread: each holds the lock from its call until all is read that it gave
    out."""

    def __init__(self, handle: Struct, free: Callable[[Any], None], name: str) -> None:
        self._handle = handle
        self._name = name
        self._lock = threading.Lock()
        self._free = weakref.finalize(self, free, ctypes.byref(handle))

    def _check(self, outcome: int) -> None:
        check(outcome, self._name)

    def _check_open(self) -> None:
        if not getattr(self._handle, "state"):
            self._check(Outcome.NONE)

    def _parts(self, count: Callable[..., int], at: Callable[..., int], kind: Type[Part]) -> List[Tuple[Part, bytes]]:
        """What the last call gave out, by index."""
        handle = ctypes.byref(self._handle)
        return [with_bytes(partial(at, handle, index), kind(), self._name) for index in range(count(handle))]

    @contextlib.contextmanager
    def _used(self) -> Iterator[Any]:
        """For a call of another handle, while no other thread calls this one."""
        with self._lock:
            self._check_open()
            yield ctypes.byref(self._handle)

    @property
    def closed(self) -> bool:
        """Whether the object holds no machine: it was closed, or the machine was lost.

        >>> from smblease import Server
        >>> Server([]).closed
        False
        """
        return not getattr(self._handle, "state")

    def close(self) -> None:
        """Frees the machine, with all that it knows. Closing twice is no fault; any other call raises ValueError from then on.

        >>> from smblease import Server
        >>> server = Server([])
        >>> server.close()
        >>> server.closed
        True
        """
        with self._lock:
            self._free()

    def __enter__(self: Self) -> Self:
        self._check_open()
        return self

    def __exit__(self, kind: Optional[Type[BaseException]], value: Optional[BaseException],
                 trace: Optional[TracebackType]) -> None:
        self.close()
