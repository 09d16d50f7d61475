"""Frames of many requests: others are served between them, and a client gets its messages in the order of what was decided."""
from __future__ import annotations

import asyncio
from pathlib import Path
from typing import List, Tuple

import pytest

from smblease import Rules, Status
from smblease.drive.headers import RELATED, Command, Message
from smblease.serve import connection
from smblease.serve.server import Server
from smblease.serve.server_process import ServerProcess
from tests import needs
from tests.serve.conftest import Connect
from tests.serve.in_process import FrameClient, Sent, server_in
from tests.serve.requests import ECHO, KEY, Body, create, frame, header, leased, query_directory, read, together, write
from tests.serve.test_greedy_clients import MIB, MIB_CHARGE, collect_credits, folders, most_memory

pytest.importorskip("impacket", reason=f"there is no package impacket; {needs.INSTALLS}")
from tests.serve.wire_client import WireClient, parts_of  # noqa: E402  # pylint: disable=wrong-import-position

COUNT = 1000
LIST: Body = create("", access=0x81, disposition=1, options=1)
RESTART = 1


@pytest.mark.parametrize("flags", [RELATED, 0], ids=["related", "unrelated"])
def test_others_are_served_between(served: ServerProcess, connect: Connect, flags: int) -> None:
    """A thousand lists of a folder in one frame: another client is answered all the while."""
    one, other = connect(served), connect(served)
    for number in range(60):
        one.ask(create(f"file-{number}"))
    opened = one.open(LIST)
    first = bytearray(header(Command.ECHO, one.number, one.session, one.tree))
    first[14:16] = (4096).to_bytes(2, "little")
    one.stream.sendall(frame(bytes(first) + ECHO[1]))
    one.receive()
    lists = [query_directory(opened, "nothing", flags=RESTART)] * COUNT
    one.stream.sendall(together(one.number + 1, one.session, one.tree, [*lists[1:], ECHO], flags))
    answered = 0
    while one.number + COUNT not in there(one):
        assert other.status(ECHO) == Status.SUCCESS
        answered += 1
    assert answered > 5


def there(client: WireClient) -> List[int]:
    """The numbers of the answers that are there by now."""
    found: List[int] = []
    while client.has_more(0):
        found += (it.identifier for it in parts_of(client.receive()))
    return found


def play(server: Server) -> None:
    """Lets the event loop go on until it has nothing to do at once."""
    for _ in range(20):
        server.loop.run_until_complete(asyncio.sleep(0))


def test_the_order_of_what_a_client_is_sent(tmp_path: Path, monkeypatch: pytest.MonkeyPatch) -> None:
    """A lease that was granted by the first request of a frame is broken before the second one is begun: first the grant is
    sent, then its break (3.3.4.7)."""
    monkeypatch.setattr(connection, "TURN", -1.0)
    with server_in(*folders(tmp_path), Rules()) as server:
        sent: Sent = []
        one, other = (FrameClient(server, guid, sent) for guid in (b"1" * 16, b"2" * 16))
        bodies = [leased("file", KEY, "RWH"), *[ECHO] * 3]
        one.connection.data_received(together(one.number, one.session, one.tree, bodies, RELATED))
        assert not sent, "its answer waits for the others"
        other.give(create("file"))
        play(server)
    found = [(client is one, message.command, message.status) for client, message in flat(sent)]
    assert found == [(True, Command.CREATE, Status.SUCCESS), (True, Command.OPLOCK_BREAK, Status.SUCCESS),
                     (False, Command.CREATE, Status.PENDING), *[(True, Command.ECHO, Status.SUCCESS)] * 3]


def flat(sent: Sent) -> List[Tuple[FrameClient, Message]]:
    return [(client, part) for client, message in sent for part in parts_of(message)]


def test_the_order_of_requests(tmp_path: Path, monkeypatch: pytest.MonkeyPatch) -> None:
    """A client's frames are done one after the other, each request in its place, whoever has a turn between them."""
    monkeypatch.setattr(connection, "TURN", -1.0)
    with server_in(*folders(tmp_path), Rules()) as server:
        sent: Sent = []
        one = FrameClient(server, b"1" * 16, sent)
        one.give(create("file"))
        opened = sent.pop()[1].number(128, 8)
        turns = [write(opened, 0, b"1"), read(opened), write(opened, 0, b"2"), read(opened)]
        for place, part in enumerate((turns[:3], turns[3:])):
            one.connection.data_received(together(one.number + 3 * place, one.session, one.tree, part))
        play(server)
    assert [message.data[80:] for _, message in sent if message.command == Command.READ] == [b"1", b"2"]
    assert [message.identifier for _, message in sent] == list(range(one.number, one.number + 4))


def test_answers_that_are_read_slowly(served: ServerProcess, connect: Connect) -> None:
    """The requests of a frame wait until those before them are read; then each is answered."""
    one, other = connect(served), connect(served)
    opened = one.open(create("file"))
    one.ask(write(opened, MIB - 1, b"x"))
    collect_credits(one)
    before, count = most_memory(served), 24
    one.stream.sendall(together(one.number, one.session, one.tree, [read(opened, MIB)] * count, charge=MIB_CHARGE))
    assert [other.status(ECHO) for _ in range(20)] == [Status.SUCCESS] * 20
    assert [(message.status, len(message.data)) for message in (one.receive() for _ in range(count))] == [
        (Status.SUCCESS, 80 + MIB)] * count
    assert most_memory(served) - before < 16 * MIB
