"""What an open of a file costs where it is open already, however often."""
from __future__ import annotations

import itertools
import time
import uuid
from collections.abc import Callable
from pathlib import Path

import pytest

from smblease import Rules, Status
from smblease.drive.headers import Command
from smblease.serve.server import Server
from tests.serve.in_process import FrameClient, Sent, server_in
from tests.serve.requests import KEY, Body, close, create, leased, lock, read

OPENS, CHUNK, ROUNDS = 8000, 50, 20
MOST = 2.0
LEVEL_II, UNLOCK = 1, 4
_KEYS = (uuid.UUID(int=it) for it in itertools.count(1))


class Opener:
    """A client that opens one file again and again."""

    def __init__(self, server: Server, body: Callable[[], Body], has_locks: bool) -> None:
        self.opens: list[int] = []
        self._sent: Sent = []
        self._client = FrameClient(server, b"g" * 16, self._sent)
        self._body, self._has_locks = body, has_locks

    def open_some(self) -> None:
        for _ in range(CHUNK):
            self._client.give(self._body())
        opened = [it for _, it in self._sent if it.command is Command.CREATE and it.status == Status.SUCCESS]
        self.opens.extend(it.number(128, 8) for it in opened)
        self._sent.clear()

    def use_and_close_some(self) -> None:
        for _ in range(CHUNK):
            file_id = self.opens.pop(len(self.opens) // 2)
            for request in (read(file_id), *([lock(file_id), lock(file_id, UNLOCK)] if self._has_locks else []), close(file_id)):
                self._client.give(request)
        assert {it.status for _, it in self._sent} == {Status.END_OF_FILE, Status.SUCCESS}
        self._sent.clear()

    def cut(self) -> None:
        self._client.cut()


def seconds(work: Callable[[], None]) -> float:
    """The processor time of it."""
    begun = time.process_time()
    work()
    return time.process_time() - begun


@pytest.mark.parametrize("body, has_locks", [
    pytest.param(lambda: create("file"), True, id="with no lease"),
    pytest.param(lambda: leased("file", KEY, "RH"), True, id="under one key"),
    pytest.param(lambda: leased("file", next(_KEYS), "RH"), False, id="each under a key of its own"),
    pytest.param(lambda: create("file", level=LEVEL_II), False, id="each with an oplock"),
])
def test_opens_of_one_file(tmp_path: Path, body: Callable[[], Body], has_locks: bool) -> None:
    """After 8,000 of them one costs less than twice what it does after 50, and so do a read, a lock and a close. (Where others
    cache the file a lock breaks what they cache.) Both are timed in turns, since what else runs here slows down either."""
    for name in ("few", "few_streams", "many", "many_streams"):
        (tmp_path / name).mkdir()
    rules = Rules.of("by-key,whole")
    with server_in(tmp_path / "few", tmp_path / "few_streams", rules) as one, \
            server_in(tmp_path / "many", tmp_path / "many_streams", rules) as other:
        few, many = Opener(one, body, has_locks), Opener(other, body, has_locks)
        few.open_some()
        while len(many.opens) < OPENS:
            many.open_some()
        assert len(many.opens) == len(other.opens)
        works = few.open_some, few.use_and_close_some, many.open_some, many.use_and_close_some
        rounds = [[seconds(it) for it in works] for _ in range(ROUNDS)]
        few.cut()
        many.cut()
    open_few, use_few, open_many, use_many = (min(times) for times in zip(*rounds))
    assert [open_many / open_few < MOST, use_many / use_few < MOST] == [True, True], rounds
