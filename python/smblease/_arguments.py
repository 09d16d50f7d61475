"""Arguments of calls, checked: ctypes would cut a number to the width of its type without a word."""
import ctypes
import operator
import uuid
from typing import Any, Sequence, Tuple, Union

Octets = Union[bytes, bytearray, memoryview]

BYTE, WORD, LONG = 0xFF, 0xFFFF_FFFF, 0xFFFF_FFFF_FFFF_FFFF


def number(value: int, most: int, name: str) -> int:
    try:
        found = operator.index(value)
    except TypeError:
        raise TypeError(f"{name} is a number, and not {value!r}") from None
    if not 0 <= found <= most:
        raise ValueError(f"{name} is a number from 0 to {most}, and not {found}")
    return found


def are_longs(one: int, two: int, three: int) -> bool:
    """Whether three arguments are numbers that fit, all at once."""
    try:
        every = one | two | three
    except TypeError:
        return False
    return isinstance(every, int) and 0 <= every <= LONG


def octets(value: Octets, name: str = "this argument") -> bytes:
    # (`bytes` of a number would be so many zero bytes)
    try:
        return value if isinstance(value, bytes) else bytes(memoryview(value))
    except TypeError:
        raise TypeError(f"{name} is bytes, and not {value!r}") from None


def key_octets(value: uuid.UUID) -> bytes:
    if not isinstance(value, uuid.UUID):
        raise TypeError(f"a uuid.UUID is needed, and not {value!r}")
    return value.bytes


def key_field(value: uuid.UUID) -> Any:
    """A key as the structs have it."""
    return (ctypes.c_uint8 * 16)(*key_octets(value))


def key_of(field: Any) -> uuid.UUID:
    return uuid.UUID(bytes=bytes(field))


def counted(value: Octets, name: str = "this argument") -> Tuple[bytes, int]:
    """Bytes, and how many they are."""
    given = octets(value, name)
    return given, len(given)


def longs(values: Sequence[int], name: str) -> Any:
    """Numbers of 64 bits as an array, or None of none."""
    given = [number(value, LONG, name) for value in values]
    return (ctypes.c_uint64 * len(given))(*given) if given else None
