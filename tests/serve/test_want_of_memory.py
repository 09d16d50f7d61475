"""What needs more memory, or a deeper stack, than there is: it ends a request, and no server."""
from __future__ import annotations

import contextlib
import os
from pathlib import Path

import pytest

from smblease import Rules, Status
from smblease.serve import chains
from smblease.serve.event_loop import Loop
from smblease.serve.packets import Response, framed
from smblease.serve.server_process import ServerProcess
from tests.serve.conftest import Connect, Start
from tests.serve.in_process import FrameClient, Sent, server_in
from tests.serve.requests import create, query_directory, read, write
from tests.serve.test_command_line import ODD

DEPTH = 1500
FOLDER, DELETING = 1, 0x1000


def test_a_request_that_needs_too_much(program: str, connect: Connect) -> None:
    """It is answered INSUFFICIENT_RESOURCES, a line says why, and its connection goes on."""
    server = ServerProcess(program, interpreter=(*ODD, "greedy"))
    one = connect(server)
    opened = one.open(create("file"))
    one.ask(write(opened, 0, b"bytes"))
    assert [one.status(read(opened)) for _ in range(3)] == [Status.INSUFFICIENT_RESOURCES] * 2 + [Status.SUCCESS]
    server.close()
    assert (server.status, [it.split(": ")[1] for it in server.complaints.splitlines()]) == (0, ["MemoryError", "RecursionError"])


def test_an_answer_that_there_is_no_memory_for(tmp_path: Path, monkeypatch: pytest.MonkeyPatch) -> None:
    def without_memory(responses: list[Response]) -> bytes:
        if any(it.data for it in responses):
            raise MemoryError
        return framed(responses)
    monkeypatch.setattr(chains, "framed", without_memory)
    (tmp_path / "share").mkdir()
    (tmp_path / "streams").mkdir()
    with server_in(tmp_path / "share", tmp_path / "streams", Rules()) as server:
        sent: Sent = []
        one = FrameClient(server, b"1" * 16, sent)
        one.give(create("file"))
        opened = sent[-1][1].number(128, 8)
        for body in (write(opened, 0, b"bytes"), read(opened), write(opened, 0, b"more")):
            one.give(body)
    assert [message.status for _, message in sent[1:]] == [Status.SUCCESS, Status.INSUFFICIENT_RESOURCES, Status.SUCCESS]


@pytest.mark.parametrize("fault", [MemoryError, RecursionError])
def test_the_event_loop(fault: type[Exception], caplog: pytest.LogCaptureFixture) -> None:
    """It goes on, and a line says what was missing."""
    loop = Loop()

    def break_down() -> None:
        raise fault
    with contextlib.closing(loop.events) as events:
        events.call_soon(break_down)
        events.call_soon(events.call_soon, events.stop)
        loop.run()
    assert fault.__name__ in caplog.text


def make_below(folder: Path, name: str, depth: int) -> None:
    """Folders in one another, with a file in the deepest."""
    here = os.open(folder, os.O_RDONLY)
    for _ in range(depth):
        os.mkdir(name, dir_fd=here)
        below = os.open(name, os.O_RDONLY, dir_fd=here)
        os.close(here)
        here = below
    os.close(os.open("file", os.O_WRONLY | os.O_CREAT, dir_fd=here))
    os.close(here)


def remove_below(folder: Path, name: str, depth: int) -> None:
    """The same again, for pytest's own folder."""
    here = os.open(folder, os.O_RDONLY)
    for _ in range(depth):
        below = os.open(name, os.O_RDONLY, dir_fd=here)
        os.close(here)
        here = below
    os.unlink("file", dir_fd=here)
    for _ in range(depth):
        above = os.open("..", os.O_RDONLY, dir_fd=here)
        os.close(here)
        here = above
        os.rmdir(name, dir_fd=here)
    os.close(here)


def test_folders_in_one_another(start: Start, connect: Connect, tmp_path: Path, monkeypatch: pytest.MonkeyPatch) -> None:
    """They are copied, listed, made and removed, and the copy is gone when the server ends; the path has 10,000 bytes."""
    name = "folder"
    for made in ("share", "temporary"):
        (tmp_path / made).mkdir()
    make_below(tmp_path / "share", name, DEPTH)
    try:
        monkeypatch.setenv("TMPDIR", str(tmp_path / "temporary"))
        server = start("--folder", str(tmp_path / "share"))
        one, deepest = connect(server), "\\".join([name] * DEPTH)
        listed = one.ask(query_directory(one.open(create(deepest, access=0x81, disposition=1, options=FOLDER))))
        assert (listed.status, "file".encode("utf-16le") in listed.data) == (Status.SUCCESS, True)
        one.open(create(f"{deepest}\\more", disposition=2, options=FOLDER))
        one.open(create(f"{deepest}\\file", access=0x13019F, disposition=1, options=DELETING))
        server.close()
        assert not list((tmp_path / "temporary").iterdir())
    finally:
        remove_below(tmp_path / "share", name, DEPTH)
