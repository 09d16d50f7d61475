"""How many calls of Python a request takes, which doesn't depend on the machine."""
from __future__ import annotations

import sys
from collections.abc import Callable
from pathlib import Path
from types import FrameType

import pytest

from smblease import Rules, Status
from smblease.drive.headers import RELATED
from smblease.serve import connection
from tests.serve.in_process import FrameClient, Sent, server_in
from tests.serve.requests import EVERY_FILE_ID, close, create, frame, header, read, write

REQUESTS, BLOCK = 50, 4096
OVERWRITE_IF, OPEN = 5, 1


class Counted:
    """Calls of functions in Python and in C, and each time that a generator goes on."""

    def __init__(self) -> None:
        self.calls = 0

    def note(self, _: FrameType, event: str, __: object) -> None:
        self.calls += event in ("call", "c_call")

    def during(self, work: Callable[[], None]) -> float:
        """For each of so many requests."""
        before = sys.getprofile()
        sys.setprofile(self.note)
        try:
            work()
        finally:
            sys.setprofile(before)
        return self.calls / REQUESTS


def opened_and_closed(client: FrameClient) -> bytes:
    """A CREATE and its CLOSE in one frame."""
    first, second = create("file", disposition=OPEN)[1], close(EVERY_FILE_ID)[1]
    first += bytes(-len(first) % 8)
    client.number += 2
    return frame(header(5, client.number - 2, client.session, client.tree, 64 + len(first)) + first
                 + header(6, client.number - 1, client.session, client.tree, 0, RELATED) + second)


def alone(client: FrameClient, command: int, body: bytes) -> bytes:
    client.number += 1
    return frame(header(command, client.number - 1, client.session, client.tree) + body)


@pytest.mark.parametrize("what, most", [("write", 135), ("read", 140), ("open and close", 310)])
def test_calls(what: str, most: int, tmp_path: Path, monkeypatch: pytest.MonkeyPatch) -> None:
    """A batch of requests of one client, whose session isn't signed, by an open without a lease."""
    monkeypatch.setattr(connection, "TURN", 1000.0)
    share, streams = tmp_path / "share", tmp_path / "streams"
    share.mkdir()
    streams.mkdir()
    sent: Sent = []
    with server_in(share, streams, Rules.of("by-key,whole")) as server:
        client = FrameClient(server, b"g" * 16, sent)
        client.give(create("file", disposition=OVERWRITE_IF))
        file_id = sent.pop()[1].number(128, 8)
        client.give(write(file_id, 0, bytes(BLOCK)))
        making: dict[str, Callable[[], bytes]] = {
            "write": lambda: alone(client, 9, write(file_id, 0, bytes(BLOCK))[1]),
            "read": lambda: alone(client, 8, read(file_id, BLOCK)[1]), "open and close": lambda: opened_and_closed(client)}
        frames = b"".join(making[what]() for _ in range(REQUESTS))
        sent.clear()
        counted = Counted().during(lambda: client.connection.data_received(frames))
        client.cut()
    assert len(sent) == REQUESTS and {it.status for _, it in sent} == {Status.SUCCESS}
    assert counted <= most
