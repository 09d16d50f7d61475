"""How a server follows versions: each decision once and at once, and where there is no memory for that."""
from __future__ import annotations

from collections.abc import Iterator
from pathlib import Path

import pytest

from smblease import Rules, Status, Versions
from smblease.drive.headers import UNASKED
from smblease.serve.manager_host import ManagerHost
from smblease.serve.server import Server
from tests.python.version_bytes import Lease, chain
from tests.serve.in_process import FrameClient, Sent, server_in
from tests.serve.requests import Body, close, create, write
from tests.serve.second_versions import FIRST, LEASED, RH, RWH, SECOND, acknowledgment


@pytest.fixture(name="server")
def following_server(tmp_path: Path) -> Iterator[Server]:
    """One whose host follows versions, of clients of 2.1."""
    for name in ("share", "streams"):
        (tmp_path / name).mkdir()
    with server_in(tmp_path / "share", tmp_path / "streams", Rules.of("by-key,whole")) as server:
        server.host = ManagerHost(Rules.of("by-key,whole"), server, has_versions=True)
        yield server


def leasing(name: str, key: bytes) -> Body:
    return create(name, level=LEASED, contexts=chain([(b"RqLs", Lease(key, RWH).write())]))


def played(server: Server, sent: Sent) -> None:
    """Grants, a break, an acknowledgment, a lost connection, a close that waits for none, and a session that goes."""
    one, other = (FrameClient(server, it * 16, sent) for it in (b"1", b"2"))
    one.give(leasing("file", FIRST))
    other.give(leasing("file", SECOND))
    one.give(acknowledgment(FIRST, RH))
    opened = next(it for client, it in reversed(sent) if client is other and it.identifier != UNASKED).number(128, 8)
    other.give(write(opened))
    other.give(close(opened))
    other.cut()
    one.give(leasing("file", FIRST))
    one.cut()


def test_each_decision_is_followed_once(server: Server, monkeypatch: pytest.MonkeyPatch) -> None:
    """Right after the call that decided it, by its place."""
    events: list[tuple[str, int]] = []
    decide, follow = server.host.manager._decisions, Versions.follow  # pylint: disable=protected-access  # (of all its calls)

    def noting(*words: object) -> object:
        decided = decide(*words)  # type: ignore[arg-type]
        events.append(("decided", len(decided)))
        return decided

    def following(self: Versions, index: int, timeout: int = 0) -> bytes:
        events.append(("followed", index))
        return follow(self, index, timeout)
    monkeypatch.setattr(server.host.manager, "_decisions", noting)
    monkeypatch.setattr(Versions, "follow", following)
    played(server, [])
    assert sum(count for kind, count in events if kind == "decided") > 10
    while events:
        kind, count = events.pop(0)
        assert kind == "decided"
        assert [events.pop(0) for _ in range(count)] == [("followed", place) for place in range(count)]


@pytest.mark.parametrize("what", ["asked", "closing"])
def test_no_memory_before_the_manager_is_asked(server: Server, monkeypatch: pytest.MonkeyPatch, what: str) -> None:
    """The request is refused, and nothing has changed: it may be made again."""
    sent: Sent = []
    one = FrameClient(server, b"1" * 16, sent)
    one.give(leasing("file", FIRST))
    opened = sent.pop()[1].number(128, 8)

    def without(*_: object) -> None:
        raise MemoryError
    with monkeypatch.context() as patched:
        patched.setattr(Versions, what, without)
        one.give(leasing("file", SECOND) if what == "asked" else close(opened))
    assert sent.pop()[1].status == Status.INSUFFICIENT_RESOURCES
    assert len(server.opens) == 1 and server.host.manager.has_open(opened)
    one.give(close(opened))
    one.give(leasing("file", SECOND))
    assert [it.status for _, it in sent] == [Status.SUCCESS] * 2 and not server.host.manager.has_open(opened)


def test_no_memory_after_the_manager_has_decided(server: Server, monkeypatch: pytest.MonkeyPatch,
                                                 caplog: pytest.LogCaptureFixture) -> None:
    """All connections are cut, as where the manager is lost, and new ones are served."""
    sent: Sent = []
    one = FrameClient(server, b"1" * 16, sent)

    def without(*_: object) -> bytes:
        raise MemoryError
    with monkeypatch.context() as patched:
        patched.setattr(Versions, "follow", without)
        one.give(leasing("file", FIRST))
    assert (one.connection.is_open, server.opens, "no memory for the manager" in caplog.text) == (False, {}, True)
    sent.clear()
    other = FrameClient(server, b"2" * 16, sent)
    other.give(leasing("file", FIRST))
    assert [it.status for _, it in sent] == [Status.SUCCESS]
