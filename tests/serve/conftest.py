"""Servers of serve/run in processes of their own, and clients that are connected to them."""
from __future__ import annotations

from collections.abc import Callable, Iterator
from dataclasses import replace
from pathlib import Path
from typing import TYPE_CHECKING

import pytest

from smblease.serve.server_process import ServerProcess
from tests import needs
from tests.serve.modern import EVERY, Modern
from tests.serve.negotiating import Asking

if TYPE_CHECKING:
    from tests.serve.modern_client import ModernClient
    from tests.serve.wire_client import WireClient

Start = Callable[..., ServerProcess]
Connect = Callable[..., "WireClient"]


def starting(program: str) -> Iterator[Start]:
    """Starts servers with these words. None may end in another way than it should, or complain."""
    servers: list[ServerProcess] = []

    def started(*words: str, record: Path | None = None, interpreter: tuple[str, ...] = ()) -> ServerProcess:
        servers.append(ServerProcess(program, str(record) if record else None, list(words), interpreter=interpreter))
        return servers[-1]
    yield started
    for server in servers:
        server.close()
    assert [(it.status, it.complaints) for it in servers] == [(0, "")] * len(servers)


@pytest.fixture
def start(program: str) -> Iterator[Start]:
    yield from starting(program)


@pytest.fixture(scope="module")
def start_for_all(program: str) -> Iterator[Start]:
    """Starts a server that the tests of a module share."""
    yield from starting(program)


@pytest.fixture(scope="module")
def shared(start_for_all: Start) -> ServerProcess:
    return start_for_all()


@pytest.fixture
def served(start: Start) -> ServerProcess:
    """An empty share, for guests."""
    return start()


@pytest.fixture
def connect() -> Iterator[Connect]:
    """Connects a client to a server, under a ClientGuid of its own or under one that is named."""
    pytest.importorskip("impacket", reason=f"there is no package impacket; {needs.INSTALLS}")
    from tests.serve.wire_client import WireClient  # pylint: disable=import-outside-toplevel
    clients: list[WireClient] = []

    def connected(server: ServerProcess, guid: bytes | None = None, user: str = "guest", password: str = "guest") -> WireClient:
        clients.append(WireClient(replace(server.place, user=user, password=password), guid))
        return clients[-1]
    yield connected
    for client in clients:
        client.close()


@pytest.fixture(scope="module")
def every(start_for_all: Start) -> ServerProcess:
    """A server that speaks all dialects, to a user and to guests."""
    return start_for_all(*EVERY, "--guests")


@pytest.fixture
def modern() -> Iterator[Modern]:
    """Connects a client that makes each message by itself; it hasn't negotiated."""
    from tests.serve.modern_client import ModernClient  # pylint: disable=import-outside-toplevel
    clients: list[ModernClient] = []

    def connected(server: ServerProcess, asking: Asking = Asking()) -> ModernClient:
        clients.append(ModernClient(server.place, asking))
        return clients[-1]
    yield connected
    for client in clients:
        client.close()
