"""What calls of this package raise besides TypeError, ValueError and MemoryError."""
from __future__ import annotations

import ctypes
from typing import Any

from smblease._library import library

_NAME_MOST = 10


class MachineLost(Exception):
    """Memory ran out within a call of a machine. The machine is gone with all that it knew, and its object holds nothing: each
    further call raises ValueError, as after `close`.

    >>> issubclass(MachineLost, MemoryError)
    False
    """


class KeptFault(ValueError):
    """Bytes of which no manager is made: they were cut off or changed, or what they hold would break a law of managers.

    >>> from smblease import Manager, Rules
    >>> Manager(Rules.of("by-key,whole"), kept=b"other bytes")
    Traceback (most recent call last):
    ...
    smblease.faults.KeptFault: the bytes of kept opens are damaged
    """


class ToolFault(Exception):
    """What the program `leasecheck` or a tool that uses it can't do, as a text for people.

    >>> str(ToolFault("fault line 3"))
    'fault line 3'
    """


class Fault(ValueError):
    """Bytes that are refused: why, by `number` and `name`; `place`, where the create context begins that the fault was found in
    (0 in a break message); and `status`, with which a server answers.

    >>> from smblease import CreateAsk
    >>> try:
    ...     CreateAsk.read(bytes(4))
    ... except Fault as fault:
    ...     print(fault, hex(fault.status))
    fault 1 Short at 0 0xc000000d
    """

    def __init__(self, number: int, place: int) -> None:
        room = ctypes.create_string_buffer(_NAME_MOST)
        library.smblease_fault_name(number, room, len(room))
        self.number = number
        self.name = room.value.decode("ascii")
        self.place = place
        self.status = int(library.smblease_fault_status(number))
        super().__init__(f"fault {number} {self.name} at {place}")

    def __reduce__(self) -> Any:
        return Fault, (self.number, self.place)


def raise_fault(found: Any) -> None:
    """Raises the fault that a reader gave, where it gave one."""
    if found.kind:
        raise Fault(int(found.kind), int(found.place))
