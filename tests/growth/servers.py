"""Families of lines for `leasecheck server`, and of schedules for `leasecheck replay`, of requests about a file with many leases.
Client 1 has the leases, each under a key of its own; client 2 asks for what conflicts with them."""
from __future__ import annotations

from typing import Callable

from tests.growth.family import Family
from tests.growth.schedules import begun, served

READS, READS_HANDLES, ALL = 1, 3, 7
# A create that conflicts with every open that only reads and lets others only read.
CONFLICTING = "create 1 w rw -"
SHARING = "create 1 rw rw -"


def key_of(number: int) -> str:
    return number.to_bytes(16, "big").hex()


def lease_ask(number: int, state: int, durable: bool = False) -> str:
    """An RqLs context, and behind it DHnQ where a durable open is asked for, as hexadecimal digits."""
    lease = b"\x10\0\x04\0\0\0\x18\0\x20\0\0\0" + b"RqLs" + bytes(4) + bytes.fromhex(key_of(number)) + state.to_bytes(4, "little")
    lease += bytes(12)
    if not durable:
        return (bytes(4) + lease).hex()
    asked = b"\x10\0\x04\0\0\0\x18\0\x10\0\0\0" + b"DHnQ" + bytes(20)
    return ((4 + len(lease)).to_bytes(4, "little") + lease + bytes(4) + asked).hex()


def acknowledgment(number: int, state: int) -> str:
    return f'ack 24000000{"00" * 4}{key_of(number)}{state.to_bytes(4, "little").hex()}{"00" * 8}'


def text(lines: list[str]) -> str:
    return "\n".join(lines) + "\n"


def asked(client: int, *requests: str) -> list[str]:
    return [f"receive {client} {request}" for request in requests]


def joined() -> list[str]:
    return ["file 61", "join 1", "join 2"]


def leases(count: int, state: int, durable: int = 0) -> list[str]:
    """n creates that only read and let others only read, each under a key of its own. Of `durable` numbers each first is of a
    durable open; of 0 none."""
    return [f"create 1 r r {lease_ask(number, state, bool(durable) and number % durable == 0)}" for number in range(1, count + 1)]


def server_acknowledged(count: int) -> str:
    """n leases are held by one create, and are acknowledged one by one: who acknowledges isn't to be charged for the others."""
    acks = [acknowledgment(number, READS) for number in range(1, count + 1)]
    return text(joined() + asked(1, *leases(count, READS_HANDLES)) + asked(2, CONFLICTING) + asked(1, *acks))


def server_expired(count: int) -> str:
    """n leases are held by one create, and their timers run out one by one."""
    timers = [f"expire 1 {key_of(number)}" for number in range(1, count + 1)]
    return text(joined() + asked(1, *leases(count, READS_HANDLES)) + asked(2, CONFLICTING) + timers)


def server_conflicts(count: int) -> str:
    """n creates conflict with n leases that have no handle to give up, and are refused: that is to be found without asking each
    lease."""
    return text(joined() + asked(1, *leases(count, READS)) + asked(2, *[CONFLICTING] * count))


def server_released(count: int) -> str:
    """n creates of a client wait for one lease, whose timer runs out: each is to be taken out of the queue without moving the
    others."""
    holding = f"create 1 rw rw {lease_ask(1, ALL)}"
    return text(joined() + asked(1, holding) + asked(2, *[SHARING] * count) + [f"expire 1 {key_of(1)}"])


def server_cut(count: int) -> str:
    """A client with n opens, of which half are durable and stay, is cut and joins again."""
    return text(joined() + asked(1, *leases(count, READS_HANDLES, durable=2)) + ["cut 1", "join 1"])


def server_parted(count: int) -> str:
    """Beside n opens of client 1, client 2 opens once and is cut, n times: it isn't to be charged for the others."""
    turn = ["join 2", *asked(2, f"create 1 r r {lease_ask(1, READS)}"), "cut 2"]
    return text(["file 61", "join 1"] + asked(1, *leases(count, READS)) + turn * count)


def replay_acknowledged(count: int) -> str:
    """The same as a run: n leases are held by one create, and are acknowledged one by one."""
    lines = begun("61", 2)
    for request in leases(count, READS_HANDLES):
        lines += served(1, request)
    lines += served(2, CONFLICTING)
    for number in range(1, count + 1):
        lines += served(1, acknowledgment(number, READS))
    return text(lines)


def replay_conflicts(count: int) -> str:
    """The same as a run: n creates conflict with n leases that have no handle to give up."""
    lines = begun("61", 2)
    for request in leases(count, READS):
        lines += served(1, request)
    return text(lines + served(2, CONFLICTING) * count)


def replay_cut(count: int) -> str:
    """The same as a run: a client with n opens, of which half are durable, is cut and connects again."""
    lines = begun("61", 2)
    for request in leases(count, READS_HANDLES, durable=2):
        lines += served(1, request)
    return text(lines + ["cut 1", "notice 1", "connect 1"])


def limited(name: str, make: Callable[[int], str], unit: str, facts: dict[str, int], smallest: int = 512) -> Family:
    """A family whose exponent is to be at most 1.2: what looks into maps rises as n log n, whose exponent is 1.17 from 128 to
    1,024. At smaller sizes it would be more."""
    return Family(name, name.split("-")[0], make, smallest, unit, most_exponent=1.2, facts=facts)


SERVERS = [
    limited("server-acknowledged", server_acknowledged, "lease", {"sent 1 break": 1, "sent 1 ackdone": 1}),
    limited("server-expired", server_expired, "lease", {"sent 1 break": 1}),
    limited("server-conflicts", server_conflicts, "create", {"sent 2 createfailed 1 STATUS_SHARING_VIOLATION": 1}),
    limited("server-released", server_released, "create", {"opened 1 2": 1}),
    limited("server-cut", server_cut, "open", {"opened 1 1": 1}),
    limited("server-parted", server_parted, "open", {"opened 1 1": 1, "opened 1 2": 1}),
    # (a schedule has at most 10,000 events)
    limited("replay-acknowledged", replay_acknowledged, "lease", {"sent 1": 3}, smallest=256),
    limited("replay-conflicts", replay_conflicts, "create", {"sent 2": 1}, smallest=256),
    limited("replay-cut", replay_cut, "open", {"opened 1 1": 1}, smallest=256),
]
