"""Families of records for `leasecheck judge`, also with `--explain`, and `draw`. All writes go to the first byte of a file of one
byte, and write what is there, so that a record is as long as its facts are many."""
from __future__ import annotations

import math

from tests.growth.colliding import colliding_numbers
from tests.growth.family import Family

# A client is connected, took a message and may read from its cache.
BEGUN = ['start 1 61', 'joined 1', 'sent 1', 'took 1', 'believes 1 1 R']
READ = 'cachedread 1 1 61'
CLIENTS = 255
FILES = 255
MOST_DRAWN = 5_000


def text(lines: list[str]) -> str:
    return '\n'.join(lines) + '\n'


def chosen_numbers(count: int) -> str:
    """n writes, all settled, of numbers whose searches in a hash map with a fixed seed begin in one
    place: a record's author can choose such numbers."""
    numbers = colliding_numbers(count)
    writes = [f'wrote 1 1 {number} 0 61 through' for number in numbers]
    return text(BEGUN + writes + [f'settled 1 {number} failed' for number in numbers])


def settled_one_by_one(count: int) -> str:
    """n writes are given, then settled one by one, with a cached read after each: what is kept of
    unanswered writes is to change by the one that was settled, and not to be made anew."""
    lines = BEGUN + [f'wrote 1 1 {number} 0 61 buffered' for number in range(1, count + 1)]
    for number in range(1, count + 1):
        lines += [f'settled 1 {number} failed', READ]
    return text(lines)


def changed_by_another(count: int) -> str:
    """n writes stay unanswered while another client changes the file n times; after each change the
    first client takes a message and reads from its cache: the change is to be put below the writes
    without writing them all again."""
    lines = BEGUN + [f'wrote 1 1 {number} 0 61 through' for number in range(1, count + 1)]
    for number in range(1, count + 1):
        lines += [f'changed 1 2 {number} 0 61', 'sent 1', 'took 1', READ]
    return text(lines)


def readers(count: int) -> int:
    """How many clients read where a file is changed n times: one for 32 changes, but for the client that changes it."""
    return min(CLIENTS - 1, max(1, count // 32))


def changes_and_sendings(count: int, places: dict[int, list[int]]) -> list[str]:
    """n changes of a file by the last client; messages are sent to these clients after so many of them."""
    last = max(1, readers(count))
    lines = ['start 1 61'] + [f'joined {client}' for client in (*range(1, last + 1), CLIENTS)]
    lines += [f'believes {client} 1 R' for client in range(1, last + 1)]
    for number in range(count + 1):
        lines += [f'changed 1 {CLIENTS} {number} 0 61'] if number else []
        lines += [f'sent {client}' for client in places.get(number, [])]
    return lines


def read_once(clients: range) -> list[str]:
    """Each client takes its message and reads from its cache."""
    return [line for client in clients for line in (f'took {client}', f'cachedread {client} 1 61')]


def read_by_many(count: int) -> str:
    """n changes of a file, after which many clients that read nothing before read it once each: the changes are to be put
    once onto the file, and not once for each client."""
    clients = range(1, readers(count) + 1)
    return text(changes_and_sendings(count, {count: list(clients)}) + read_once(clients))


def read_by_many_in_reverse(count: int) -> str:
    """The same, and each client's message was sent at another place; the one that was sent last is taken first."""
    clients = range(1, readers(count) + 1)
    places: dict[int, list[int]] = {}
    for client in clients:
        places.setdefault(count * client // len(clients), []).append(client)
    return text(changes_and_sendings(count, places) + read_once(clients[::-1]))


def joined_among_many(count: int) -> str:
    """A client joins n times, among 255 clients that each have a belief of the last of 255 files:
    whether two clients' beliefs conflict is to be found without asking all clients of all files."""
    lines = [f'start {file} 61' for file in range(1, FILES + 1)]
    lines += [f'joined {client}' for client in range(1, CLIENTS + 1)]
    lines += [f'believes {client} {FILES} R' for client in range(1, CLIENTS + 1)]
    return text(lines + ['joined 1'] * count)


def rivals_of_the_last_file(count: int) -> str:
    """n beliefs of as many files as clients, and then two clients' conflicting beliefs of the last of these files: which file it
    is, and whose beliefs conflict, is to be found without reading the record for each file or client."""
    lines = [f'start {file} 61' for file in range(1, FILES + 1)]
    lines += [f'joined {client}' for client in range(1, CLIENTS + 1)]
    side = max(1, math.isqrt(max(0, count - 1)) + 1)
    lines += [f'believes {number // side + 1} {number % side + 1} R' for number in range(count)]
    return text(lines + [f'believes {CLIENTS} {side} R', f'believes 1 {side} RW'])


def facts_of_many(count: int) -> str:
    """n facts of 255 clients, half of which joined: which clients these are, and which didn't join, is to be found without
    reading the record for each client."""
    lines = [f'joined {client}' for client in range(1, CLIENTS + 1, 2)]
    return text(lines + [f'sent {number % CLIENTS + 1}' for number in range(count)])


def rivals_by_files(count: int) -> str:
    """The same, and the beliefs stand file by file: those of the last file are as late as can be."""
    lines = [f'start {file} 61' for file in range(1, FILES + 1)]
    lines += [f'joined {client}' for client in range(1, CLIENTS + 1)]
    side = max(1, math.isqrt(max(0, count - 1)) + 1)
    lines += [f'believes {number % side + 1} {number // side + 1} R' for number in range(count)]
    return text(lines + [f'believes {CLIENTS} {side} R', f'believes 1 {side} RW'])


def too_many_to_draw(count: int) -> str:
    """n facts more than a picture has room for, which are beliefs as in the family above: they are to be counted before they
    are judged, and why they are unsafe isn't to be looked for."""
    return text(['joined 1'] * MOST_DRAWN) + rivals_of_the_last_file(count)


RECORDS = [
    Family('judge-chosen-numbers', 'judge', chosen_numbers, 1024, 'write'),
    Family('judge-settled-one-by-one', 'judge', settled_one_by_one, 256, 'write'),
    Family('judge-changed-by-another', 'judge', changed_by_another, 256, 'write'),
    Family('judge-read-by-many', 'judge', read_by_many, 1024, 'change', most_exponent=1.15),
    Family('judge-read-by-many-in-reverse', 'judge', read_by_many_in_reverse, 1024, 'change',
           most_exponent=1.15),
    Family('judge-joined-among-many', 'judge', joined_among_many, 16, 'line',
           most_instructions=10_000),
    Family('explain-rivals', 'judge --explain', rivals_of_the_last_file, 8128, 'belief', rule=1),
    Family('explain-rivals-by-files', 'judge --explain', rivals_by_files, 8128, 'belief', rule=1),
    Family('draw-too-many', 'draw', too_many_to_draw, 8128, 'belief', fault='fault picture TooMany'),
    Family('explain-facts-of-many', 'judge --explain', facts_of_many, 16384, 'line', most_instructions=1_000),
]
