"""Families of schedules for `leasecheck replay`. A run has at most 16 clients and 10,000 events, so
many leases are asked for by raw requests of one client, each with a key of its own."""
from __future__ import annotations

from tests.growth.family import Family

HOLDERS = 14
READ_HANDLES = 3
FILE_BYTES = 4096
LARGE_FILE_BYTES = 65_536
# An open that is granted all it asks for, and a read that fills the cache.
CACHING = ['open 1 1 rw rw RWH', 'serve 1', 'take 1', 'read 1 1', 'serve 1', 'take 1']


def guid(client: int) -> str:
    return f'{client:032x}'


def begun(content: str, clients: int) -> list[str]:
    """A file and connected clients."""
    numbers = range(1, clients + 1)
    return ([f'file {content}'] + [f'client {guid(client)}' for client in numbers]
            + [f'connect {client}' for client in numbers])


def lease_ask(key: int, state: int) -> str:
    """An RqLs context, as hexadecimal digits."""
    header = bytes(4) + b'\x10\0\x04\0\0\0\x18\0\x20\0\0\0' + b'RqLs' + bytes(4)
    return (header + key.to_bytes(16, 'big') + state.to_bytes(4, 'little') + bytes(12)).hex()


def served(client: int, request: str) -> list[str]:
    return [f'raw {client} {request}', f'serve {client}']


def leases(count: int) -> list[str]:
    """n opens of client 1, each with a lease of its own on reads and handles."""
    lines: list[str] = []
    for key in range(1, count + 1):
        lines += served(1, f'create 1 r rw {lease_ask(key, READ_HANDLES)}')
    return lines


def text(lines: list[str]) -> str:
    return '\n'.join(lines) + '\n'


def held_creates(count: int) -> str:
    """n leases on a file, whose breaks 14 creates of other clients wait for; another client then
    sends n closes that are refused, after each of which the held creates are tried again: a try is
    to cost the same however many leases there are."""
    lines = begun('61', HOLDERS + 2) + leases(count)
    for client in range(2, HOLDERS + 2):
        lines += served(client, 'create 1 r - -')
    for _ in range(count):
        lines += served(HOLDERS + 2, 'close 18446744073709551615')
    return text(lines)


def writes_that_break(count: int) -> str:
    """n leases on a file and n writes of another client. The first write breaks all leases to none;
    the others are done while these breaks wait, and are to find nothing more to break without
    asking each lease."""
    lines = begun('61', 2) + leases(count) + served(2, 'create 1 rw rw -')
    for number in range(1, count + 1):
        lines += served(2, f'write {count + 1} {number} 0 61')
    return text(lines)


def buffered_then_read(count: int) -> str:
    """n buffered writes to the one byte of a file, then n reads from the cache: a read is to cost
    what it gives, however many writes are unsent."""
    lines = begun('61', 1) + CACHING + ['write 1 1 0 61'] * count + ['read 1 1'] * count
    return text(lines)


def large_cached_reads(count: int) -> str:
    """n reads of a file of 4 KiB from the cache. What is printed is n times the file; the peak of
    memory is to stay near the file's size and what the schedule's events need."""
    return text(begun('61' * FILE_BYTES, 1) + CACHING + ['read 1 1'] * count)


def through_and_read_by_another(count: int) -> str:
    """Two clients may read a file from their caches; one writes through n times, and the other, which takes no message, reads n
    times from its cache: a read is to cost what it gives, however often the file was changed."""
    lines = begun('61', 2)
    for client in (1, 2):
        opening = [f'open {client} 1 rw rw RH', f'read {client} 1']
        lines += [line for command in opening for line in (command, f'serve {client}', f'take {client}')]
    for _ in range(count):
        lines += ['write 1 1 0 61', 'serve 1', 'read 2 1']
    return text(lines)


def reads_not_taken(count: int) -> str:
    """n reads of a file of 64 KiB without a lease, which are served and not taken: the replies are to share their bytes."""
    opening = ['open 1 1 rw rw none', 'serve 1', 'take 1']
    return text(begun('61' * LARGE_FILE_BYTES, 1) + opening + ['read 1 1', 'serve 1'] * count)


SCHEDULES = [
    Family('replay-held-creates', 'replay', held_creates, 300, 'lease',
           facts={'sent 1': 2, f'sent {HOLDERS + 2}': 1}),
    Family('replay-writes-that-break', 'replay', writes_that_break, 300, 'lease',
           facts={'sent 1': 2, 'changed 1 2': 1}),
    Family('replay-buffered-then-read', 'replay', buffered_then_read, 400, 'write',
           facts={'wrote 1 1': 1, 'cachedread 1 1 61': 1}),
    Family('replay-large-cached-reads', 'replay', large_cached_reads, 600, 'read',
           facts={'cachedread 1 1': 1}, most_memory=FILE_BYTES),
    Family('replay-through-and-read-by-another', 'replay', through_and_read_by_another, 400, 'write', most_exponent=1.15,
           facts={'changed 1 1': 1, 'cachedread 2 1 61': 1}),
    Family('replay-reads-not-taken', 'replay', reads_not_taken, 400, 'read', most_exponent=1.15,
           facts={'sent 1': 1}, most_memory=FILE_BYTES),
]
