"""Families of lines for `leasecheck client`. A client has a file of one byte open, knows it, and writes what is there, so that
what comes in and goes out is as long as the lines are many."""
from __future__ import annotations

from tests.growth.family import Family

GUID = '11111111-1111-1111-1111-111111111111'
KEY = bytes.fromhex('11' * 12 + '01000000')
READS_HANDLES, ALL = ('RH', 3), ('RWH', 7)
WRITE, READ = 'write 1 1 0 61', 'read 1 1'


def granted(state: int, durable: bool) -> str:
    """The RqLs context of a response, and behind it DHnQ where the open is durable, as hexadecimal digits."""
    lease = b'\x10\0\x04\0\0\0\x18\0\x20\0\0\0' + b'RqLs' + bytes(4) + KEY + state.to_bytes(4, 'little') + bytes(12)
    if not durable:
        return (bytes(4) + lease).hex()
    ours = b'\x10\0\x04\0\0\0\x18\0\x08\0\0\0' + b'DHnQ' + bytes(12)
    return ((4 + len(lease)).to_bytes(4, 'little') + lease + bytes(4) + ours).hex()


def begun(lease: tuple[str, int], durable: bool = False) -> list[str]:
    """The file is open under this lease, and was read."""
    names, state = lease
    return ['files 1', f'client {GUID}', 'connect 1', f'open 1 1 rw rw {names}{" durable" if durable else ""}',
            f'take 1 created 1 7 {granted(state, durable)}', READ, 'take 1 readdone 7 61']


def text(lines: list[str]) -> str:
    return '\n'.join(lines) + '\n'


def read_after_each_write(count: int) -> str:
    """n writes are sent and not answered, with a cached read after each: a read is to cost what it gives, however many writes
    aren't answered."""
    return text(begun(READS_HANDLES) + [WRITE, READ] * count)


def read_behind_a_flush(count: int) -> str:
    """n writes are sent by a flush and not answered, and n more are buffered, with a cached read after each."""
    return text(begun(ALL) + [WRITE] * count + ['flush 1 1'] + [WRITE, READ] * count)


def flushed(count: int) -> list[str]:
    return begun(ALL) + [WRITE] * count + ['flush 1 1']


def answered_in_order(count: int) -> str:
    """n writes that a flush sent are answered in their order: the write of an answer is to be found without asking the others,
    and to be taken out without moving them."""
    return text(flushed(count) + [f'take 1 writedone 7 {number}' for number in range(1, count + 1)])


def answered_in_reverse(count: int) -> str:
    """The same, and the last write is answered first."""
    return text(flushed(count) + [f'take 1 writedone 7 {number}' for number in range(count, 0, -1)])


def read_after_each_answer(count: int) -> str:
    """n writes that a flush sent are answered in their order, with a cached read after each answer."""
    lines = flushed(count)
    for number in range(1, count + 1):
        lines += [f'take 1 writedone 7 {number}', READ]
    return text(lines)


def kept_over_connections(count: int) -> str:
    """n buffered writes are kept while the connection is lost and made n times, and are then sent: who loses a connection isn't
    to look at each write that is kept."""
    again = ['notice 1', 'connect 1', f'take 1 created 1 7 {granted(ALL[1], durable=True)}']
    return text(begun(ALL, durable=True) + [WRITE] * count + again * count + ['flush 1 1'])


CLIENTS = [
    Family('client-read-after-each-write', 'client', read_after_each_write, 1024, 'write', most_exponent=1.15,
           facts={'wrote 1 1': 1, 'cachedread 1 1 61': 1}),
    Family('client-read-behind-a-flush', 'client', read_behind_a_flush, 1024, 'write', most_exponent=1.15,
           facts={'wrote 1 1': 2, 'request write 7': 1, 'cachedread 1 1 61': 1}),
    Family('client-answered-in-order', 'client', answered_in_order, 2048, 'write', most_exponent=1.15,
           facts={'request write 7': 1, 'settled 1': 1}),
    Family('client-answered-in-reverse', 'client', answered_in_reverse, 2048, 'write', most_exponent=1.15,
           facts={'request write 7': 1, 'settled 1': 1}),
    Family('client-read-after-each-answer', 'client', read_after_each_answer, 1024, 'write', most_exponent=1.15,
           facts={'settled 1': 1, 'cachedread 1 1 61': 1}),
    Family('client-kept-over-connections', 'client', kept_over_connections, 1024, 'write', most_exponent=1.15,
           facts={'request create 1': 1, 'request write 7': 1}),
]
