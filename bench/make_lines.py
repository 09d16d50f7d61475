#!/usr/bin/env python3
"""Writes a record or a schedule of so many lines or events, of eight clients and eight files.

In each turn of a record, which is laid out as `leasecheck replay` prints one, a client opens a file, is granted all and buffers a
write; another opens it too, the lease is broken, the write is sent and accepted, and both lose what they have. In each turn of a
schedule a client opens a file, writes into its cache and reads from it; another opens the file too, and the first gives up what
it caches and both close. In each turn of a dense schedule, of two clients without leases and a file of 20,000 bytes, one writes
three times and the other reads."""
import sys
from typing import List

USAGE = 'usage: bench/make_lines.py record|schedule|dense COUNT FILE'


def turn_facts(turn: int) -> List[str]:
    one, file, two = turn % 8 + 1, turn // 8 % 8 + 1, (turn + 1) % 8 + 1
    number, patch = (turn + 7) // 8, f'{turn % 64} {turn % 65536:04x}'
    return [f'opened {file} {one}', f'sent {one}', f'took {one}', f'believes {one} {file} RWH',
            f'wrote {one} {file} {number} {patch} buffered',
            f'sent {one}', f'took {one}', f'believes {one} {file} RH',
            f'changed {file} {one} {number} {patch}', f'sent {one}', f'sent {one}', f'opened {file} {two}', f'sent {two}',
            f'took {one}', f'settled {one} {number} done', f'took {one}', f'took {two}', f'believes {two} {file} RH',
            f'sent {two}', f'sent {one}', f'took {one}', f'believes {one} {file} none', f'took {two}',
            f'believes {two} {file} none']


def turn_events(turn: int) -> List[str]:
    one, file, two = turn % 8 + 1, turn // 8 % 8 + 1, (turn + 1) % 8 + 1
    return [f'open {one} {file} rw rw RWH', f'serve {one}', f'take {one}', f'read {one} {file}', f'serve {one}', f'take {one}',
            f'write {one} {file} {turn % 64} {turn % 65536:04x}', f'read {one} {file}',
            f'open {two} {file} rw rw RH', f'serve {two}', f'take {one}', f'serve {one}', f'serve {one}', f'take {one}',
            f'take {one}', f'take {two}', f'close {one} {file}', f'close {two} {file}', f'flush {one} {file}', f'serve {one}',
            f'take {one}']


def record(count: int) -> List[str]:
    lines = [f'start {file} 616263' for file in range(1, 9)] + [f'joined {client}' for client in range(1, 9)]
    return (lines + [fact for turn in range(1, count // 24 + 2) for fact in turn_facts(turn)])[:count]


def schedule(count: int) -> List[str]:
    events = [f'connect {client}' for client in range(1, 9)]
    events += [event for turn in range(count // 21 + 1) for event in turn_events(turn)]
    return ['file 616263'] * 8 + [f'client {client:032x}' for client in range(1, 9)] + events[:count]


def dense(count: int) -> List[str]:
    events = ['connect 1', 'connect 2']
    for client in 1, 2:
        events += [f'open {client} 1 rw rw none', f'serve {client}', f'take {client}']
    for turn in range(count // 12 + 1):
        for write in range(3):
            events += [f'write 1 1 {(turn * 977 + write * 331) % 20000} {(turn * 3 + write) % 65536:04x}', 'serve 1', 'take 1']
        events += ['read 2 1', 'serve 2', 'take 2']
    return [f'file {"61" * 20000}', f'client {1:032x}', f'client {2:032x}'] + events[:count]


KINDS = {'record': record, 'schedule': schedule, 'dense': dense}

if __name__ == '__main__':
    if sys.argv[1:] == ['--help']:
        print(f'{USAGE}\n\n{__doc__}')
    elif len(sys.argv) != 4 or sys.argv[1] not in KINDS or not sys.argv[2].isdecimal():
        sys.exit(USAGE)
    else:
        with open(sys.argv[3], 'w', encoding='ascii') as text:
            text.writelines(f'{line}\n' for line in KINDS[sys.argv[1]](int(sys.argv[2])))
