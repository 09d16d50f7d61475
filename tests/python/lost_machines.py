"""What is left of an object whose machine is lost: `python3 -m tests.python.lost_machines CASE`, with a library whose allocations
can be refused by the variables of tests/c/refuse_calls.c."""
from __future__ import annotations

import os
import sys
import uuid
from collections.abc import Callable, Iterator
from contextlib import contextmanager

import pytest

from smblease import (Access, Client, CreateAsk, Created, CreateRequest, LeaseState, MachineLost, Manager, ReadRequest, Rules,
                      Server, Share, Wrote)

GUID = uuid.UUID(int=1)
RWH = LeaseState.of("RWH")
RULES = Rules.of("by-key,whole")


@contextmanager
def refusing() -> Iterator[None]:
    os.environ.update(REFUSED_FROM="1", REFUSED_TO=str(10 ** 9))
    yield
    os.environ.update(REFUSED_FROM="0", REFUSED_TO="0")


def raises_exactly(kind: type[BaseException], call: Callable[[], object]) -> None:
    with pytest.raises(kind) as raised:
        call()
    assert raised.type is kind


def lose(machine: Client | Server | Manager, call: Callable[[], object], other: Callable[[], object]) -> None:
    """A call loses a machine; another one shows that the object holds nothing."""
    with refusing():
        raises_exactly(MachineLost, call)
    assert machine.closed
    raises_exactly(ValueError, call)
    raises_exactly(ValueError, other)
    machine.close()


def opened() -> Client:
    client = Client(GUID, 1)
    client.connect()
    [request] = client.open(1, Access.READ_WRITE, Share.READ_WRITE, RWH).requests
    assert isinstance(request, CreateRequest)
    client.take(Created(1, 7, request.contexts))
    return client


def client_is_made() -> None:
    with refusing():
        raises_exactly(MemoryError, lambda: Client(GUID, 1))


def client_opens() -> None:
    client = Client(GUID, 1)
    client.connect()
    lose(client, lambda: client.open(1, Access.READ, Share.READ, RWH), lambda: client.belief(1))


def client_writes() -> None:
    client = opened()
    with refusing():
        raises_exactly(MemoryError, lambda: client.write(1, 0, b"X"))
    assert client.write(1, 0, b"X").notes == (Wrote(1, 1, 0, b"X", True),)


def client_flushes() -> None:
    client = opened()
    client.write(1, 0, b"X")
    lose(client, lambda: client.flush(1), client.connect)


def server_is_made() -> None:
    with refusing():
        raises_exactly(MemoryError, lambda: Server([b"abc"]))
        raises_exactly(MemoryError, lambda: Server([]))
    with Server([b"abc"]) as another:
        assert another.content(1) == b"abc"


def contexts_are_copied() -> None:
    server = Server([b"abc"])
    server.join(1)
    with refusing():
        raises_exactly(MemoryError, lambda: server.receive(1, CreateRequest(1, Access.READ, Share.READ, bytes(24))))
    assert len(server.receive(1, CreateRequest(1, Access.READ, Share.READ, b""))) == 2


def server_reads() -> None:
    server = Server([b"abc"])
    server.join(1)
    server.receive(1, CreateRequest(1, Access.READ, Share.READ, b""))
    lose(server, lambda: server.receive(1, ReadRequest(1)), lambda: server.content(1))
    with Server([b"abc"]) as another:
        assert another.content(1) == b"abc"


def manager_is_made() -> None:
    with refusing():
        raises_exactly(MemoryError, lambda: Manager(RULES))
    with Manager(RULES) as another:
        assert not another.opens()


def manager_opens() -> None:
    manager = Manager(RULES)
    manager.join(1)
    with refusing():
        assert not manager.create(2, 20, 5, Access.READ, Share.READ)
    lose(manager, lambda: manager.create(1, 10, 5, Access.READ, Share.READ, CreateAsk(GUID, RWH)), lambda: manager.join(2))


def opens_are_listed() -> None:
    manager = Manager(RULES)
    for client in (1, 2):
        manager.join(client)
    manager.create(1, 10, 5, Access.READ, Share.READ, CreateAsk(GUID, RWH))
    manager.create(2, 20, 5, Access.READ, Share.READ)
    with refusing():
        for listing in (manager.opens, manager.leases, manager.requests):
            raises_exactly(MemoryError, listing)
        assert manager.open_count() == 1 and manager.lease(1, GUID).state == RWH
    assert [it.file_id for it in manager.opens()] == [1]


CASES = {it.__name__: it for it in (client_is_made, client_opens, client_writes, client_flushes, server_is_made,
                                    contexts_are_copied, server_reads, manager_is_made, manager_opens, opens_are_listed)}


if __name__ == "__main__":
    CASES[sys.argv[1]]()
