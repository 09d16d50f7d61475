"""Numbers that a hash map with a fixed seed looks for in one place.

The program's maps hash a number of 64 bits by one multiplication of 64 by 64 bits, and join the
four words of 32 bits of the product by exclusive or. The low bits of what comes of it choose the
place in the table where a search begins. A seed that is chosen anew in each run makes these numbers
ordinary ones.
"""
from __future__ import annotations
SEED = 0x243F6A8885A308D3
MULTIPLIER = 0x9E3779B97F4A7C15
# A text of eight bytes is multiplied by this.
FACTOR = MULTIPLIER ^ 16
# As many low bits as a table of up to 9,216 numbers uses: 9 for each of 1,024 groups.
MASK = 1023


def hash_of(number: int) -> int:
    """The 32 bits by which a table finds the number."""
    product = (number ^ SEED) * FACTOR
    product ^= product >> 64
    return (product ^ product >> 32) & 0xFFFFFFFF


def colliding_numbers(count: int) -> list[int]:
    """The first numbers whose searches begin in the table's first place."""
    found: list[int] = []
    number = 0
    while len(found) < count:
        number += 1
        # hash_of, written out: this line runs a thousand times for each number that is found.
        product = (number ^ SEED) * FACTOR
        product ^= product >> 64
        if not (product ^ product >> 32) & MASK:
            found.append(number)
    return found
