"""Requests of leases and durable opens of version 2, and what comes of them, by their layouts and without the library."""
from __future__ import annotations

import struct
from collections.abc import Iterator
from contextlib import contextmanager
from typing import TYPE_CHECKING

from smblease.drive.headers import Command, Message
from tests.python.version_bytes import PARENT_SET, Lease, chain, durable_reconnect, durable_request, links
from tests.serve.requests import Body, create

if TYPE_CHECKING:
    from tests.serve.modern_client import ModernClient

R, RH, RW, RWH = 1, 3, 5, 7
LEASED, BATCH = 0xFF, 9
FOLDER = 1
REPLAY = 0x20000000
FIRST, SECOND, THIRD, PARENT = (bytes([it]) * 16 for it in b"1234")
GUID, OTHER_GUID = b"c" * 16, b"d" * 16
DUPLICATE_OBJECTID, FILE_NOT_AVAILABLE = 0xC000022A, 0xC0000467


def leasing(name: str, key: bytes, state: int, epoch: int | None = 0, parent: bytes | None = None,
            durable: bytes | None = None, options: int = 0, disposition: int = 3) -> Body:
    """A CREATE with a lease, of version 1 where there is no epoch, and with DH2Q where there is a CreateGuid."""
    lease = Lease(key, state, PARENT_SET if parent else 0, epoch, parent or bytes(16))
    contexts = [(b"RqLs", lease.write()), *([durable_request(durable)] if durable else [])]
    return create(name, level=LEASED, contexts=chain(contexts), options=options, disposition=disposition,
                  access=0x81 if options & FOLDER else 0x12019F)


def lasting(name: str, guid: bytes, level: int = BATCH, timeout: int = 0) -> Body:
    """A CREATE with an oplock and DH2Q."""
    return create(name, level=level, contexts=chain([durable_request(guid, timeout)]))


def again(name: str, file_id: int, guid: bytes, lease: Lease | None = None) -> Body:
    """A CREATE with DH2C."""
    contexts = [durable_reconnect(guid, file_id), *([(b"RqLs", lease.write())] if lease else [])]
    return create(name, level=LEASED if lease else 0, contexts=chain(contexts))


def granted(answer: Message) -> dict[bytes, bytes]:
    """The contexts of an answer to CREATE that isn't refused."""
    assert answer.status == 0, hex(answer.status)
    place, length = answer.number(144, 4), answer.number(148, 4)
    return links(answer.part(place, length)) if length else {}


def lease_in(answer: Message) -> Lease:
    return Lease.read(granted(answer)[b"RqLs"])


def notice(message: Message) -> tuple[bytes, int, int, int]:
    """The key, the states and the NewEpoch of a break (2.2.23.2)."""
    assert (message.command, len(message.data)) == (Command.OPLOCK_BREAK, 64 + 44)
    size, epoch, _, key, current, new = struct.unpack_from("<HHL16sLL", message.data, 64)
    assert size == 44
    return key, current, new, epoch


def acknowledgment(key: bytes, state: int) -> Body:
    return Command.OPLOCK_BREAK, struct.pack("<HHL16sLQ", 36, 0, 0, key, state, 0)


@contextmanager
def replaying(one: ModernClient) -> Iterator[None]:
    """Its requests are replays."""
    one.flags = REPLAY
    yield
    one.flags = 0
