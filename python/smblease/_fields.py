"""The fields of requests, replies and what else machines give out: as arguments of calls, and out of structs."""
from __future__ import annotations

import ctypes
from dataclasses import fields
from typing import Any, Dict, Iterator, Sequence, Tuple, Type

from smblease import _structs as structs
from smblease import replies, requests, steps
from smblease._arguments import BYTE, LONG, WORD, counted, number, octets
from smblease.values import Access, LeaseState, Share

# How high numbers may be, and what they are called where they are higher.
_NUMBERS = {"file": (BYTE, "file"), "file_id": (LONG, "file_id"), "number": (LONG, "number"), "offset": (WORD, "offset"),
            "status": (WORD, "status")}
_BYTES = ("contexts", "data", "message")
_KINDS: Dict[str, Any] = {"access": Access, "share": Share, "state": LeaseState, "refusal": steps.Refusal,
                          "outcome": steps.Settlement, "buffered": bool, "cached": bool}
_MESSAGES: Dict[Type[Any], Tuple[Type[ctypes.Structure], str]] = {
    replies.Break: (structs.BreakMessage, "a lease break notification"),
    replies.AcknowledgeDone: (structs.AckMessage, "a lease break response"),
    requests.AcknowledgeRequest: (structs.AckMessage, "a lease break acknowledgment"),
}


def arguments_of(item: Any) -> Iterator[object]:
    """A request or a reply as the arguments of the call that takes it: its fields in their order."""
    for name, value in [(it.name, getattr(item, it.name)) for it in fields(item)]:
        if name in _NUMBERS:
            yield number(value, *_NUMBERS[name])
        elif name in _KINDS:
            yield _kind(_KINDS[name], value, name)
        elif type(item) in _MESSAGES:
            yield ctypes.byref(_message(*_MESSAGES[type(item)], octets(value, name)))
        else:
            yield from counted(value, name)


def _kind(kind: Any, value: object, name: str) -> int:
    try:
        return int(kind(value).value)
    except ValueError as fault:
        raise ValueError(f"{name}: {fault}") from None


def _message(kind: Type[ctypes.Structure], name: str, data: bytes) -> ctypes.Structure:
    size = ctypes.sizeof(kind)
    if len(data) != size:
        raise ValueError(f"{name} has {size} bytes, and not {len(data)}")
    return kind.from_buffer_copy(data)


def item_of(kinds: Sequence[Type[Any]], has: Any, data: bytes) -> Any:
    """What a struct says that a machine gave out: one of these, whose numbers are from 1. It has its bytes apart."""
    kind = kinds[has.kind - 1]
    return kind(*(data if it.name in _BYTES else _KINDS.get(it.name, int)(getattr(has, it.name)) for it in fields(kind)))
