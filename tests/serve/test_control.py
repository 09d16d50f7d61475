"""Ways by which lines of control come: a socket, and a script."""
from __future__ import annotations

import re
import socket
import stat
from collections.abc import Iterator
from contextlib import contextmanager
from pathlib import Path

import pytest

from smblease import CreateAsk, LeaseState, Notification, Status
from smblease.drive.headers import HEADER
from smblease.serve.control_streams import Lines
from smblease.serve.server_process import ServerProcess
from tests.paths import TOP
from tests.serve.conftest import Connect, Start
from tests.serve.requests import ECHO, KEY, acknowledgment, create, leased, read, write
from tests.serve.test_command_line import PLACE, run


@contextmanager
def connected(path: Path) -> Iterator[socket.socket]:
    with socket.socket(socket.AF_UNIX) as stream:
        stream.settimeout(20)
        stream.connect(str(path))
        yield stream


def test_a_socket(start: Start, connect: Connect, tmp_path: Path) -> None:
    """Several may steer; what comes in pieces is one line. It is its owner's alone, and gone with the server."""
    path = tmp_path / "control"
    server = start("--control-socket", str(path))
    one = connect(server)
    assert stat.S_IMODE(path.stat().st_mode) == 0o600
    with connected(path) as first, connected(path) as second:
        first.sendall(b"drop ECHO 1\nlogoff 7\nha")
        second.sendall(b"refuse DISK_FULL CREATE\n")
        assert (first.recv(100), second.recv(100)) == (b"done\nnothing\n", b"done\n")
        first.sendall(b"lt\n")
        assert first.recv(100) == b"refused\n"
    one.send(ECHO)
    assert one.status(create("file")) == Status.DISK_FULL
    server.close()
    assert not path.exists()


def test_a_line_without_an_end() -> None:
    """Of it no more is kept than a line may have."""
    lines = Lines(lambda line: str(len(line)))
    assert [lines.answered(b"x" * 3000) for _ in range(3)] == [b""] * 3
    assert lines.answered(b"\nabc\n") == b"4096\n3\n"


def test_a_socket_whose_name_is_taken(program: str, tmp_path: Path) -> None:
    (tmp_path / "control").write_bytes(b"")
    done = run(program, *PLACE, "--control-socket", str(tmp_path / "control"))
    assert (done.returncode, done.stderr) == (1, f"serve/run: {tmp_path / 'control'}: Address already in use\n")
    assert (tmp_path / "control").exists()


def scripted(start: Start, path: Path, *lines: str) -> ServerProcess:
    path.write_text("\n".join(lines) + "\n", encoding="utf-8")
    return start("--script", str(path))


def test_a_script(start: Start, connect: Connect, tmp_path: Path) -> None:
    """Each line waits until there is something to do it to; what comes after it waits with it."""
    server = scripted(start, tmp_path / "script", "# the client's first lease", f"break 1 {KEY.hex} RH", "", "wait READ 1",
                      "refuse DISK_FULL WRITE", "wait WRITE", "disconnect 1")
    one = connect(server)
    held = one.open(create("file"))
    assert one.status(write(held)) == Status.SUCCESS
    one.open(leased("other", KEY, "RWH"))
    assert str(Notification.read(one.receive().data[HEADER:]).new) == "RH"
    assert one.ask(acknowledgment(KEY, "RH")).status == Status.SUCCESS
    assert one.status(write(held)) == Status.SUCCESS
    assert [one.status(it) for it in (read(held), write(held))] == [Status.SUCCESS, Status.DISK_FULL]
    assert one.has_more(5) and one.stream.recv(1) == b""


def test_the_script_of_the_page(start: Start, connect: Connect, tmp_path: Path) -> None:
    """A client's lease is broken, it reads twice, and its connection ends before its write is answered."""
    page = (TOP / "docs/CLIENT_TESTS.md").read_text(encoding="utf-8")
    found, = re.findall(r"\n\n((?:    (?:break|wait|drop|disconnect) .*\n)+)\n", page)
    one = connect(scripted(start, tmp_path / "script", *(it.strip() for it in found.splitlines())))
    held = one.open(leased("file", KEY, "RWH"))
    assert str(Notification.read(one.receive().data[HEADER:]).new) == "RH"
    assert [one.ask(it).status for it in (acknowledgment(KEY, "RH"), write(held), read(held), read(held))] == [Status.SUCCESS] * 4
    one.send(write(held))
    assert one.has_more(5) and one.stream.recv(1) == b""


def test_a_script_that_is_not_done(program: str, connect: Connect, tmp_path: Path) -> None:
    """A line says so at the end."""
    path = tmp_path / "script"
    path.write_text("drop READ\nlogoff 2\ndrop WRITE\n", encoding="utf-8")
    server = ServerProcess(program, None, ["--script", str(path)])
    connect(server)
    server.close()
    assert (server.status, server.complaints) == (0, f"{path}: it went no further than line 2: logoff 2\n")


def test_a_line_of_a_script_that_can_not_be_done(program: str, connect: Connect, tmp_path: Path) -> None:
    path = tmp_path / "script"
    path.write_text(f"break 1 {KEY.hex} none\nrefuse DISK_FULL ECHO\n", encoding="utf-8")
    server = ServerProcess(program, None, ["--script", str(path)])
    one = connect(server)
    one.open(create("file", share=0, level=0xFF, contexts=CreateAsk(KEY, LeaseState.of("RWH")).write()))
    assert one.status(ECHO) == Status.DISK_FULL
    server.close()
    assert server.complaints == f"{path}: line 1 can't be done: break 1 {KEY.hex} none\n"


@pytest.mark.parametrize("text, status, fault", [
    pytest.param(b"drop READ\nhalt\n", 2, "--script {}: line 2 is none: halt", id="a line"),
    pytest.param(b"wait\n", 2, "--script {}: line 1 is none: wait", id="wait"),
    pytest.param(b"\xff\n", 1, "{}: no text of UTF-8", id="bytes"),
    pytest.param(None, 1, "{}: No such file or directory", id="none")])
def test_a_script_that_can_not_be_read(program: str, tmp_path: Path, text: bytes | None, status: int, fault: str) -> None:
    path = tmp_path / "script"
    if text is not None:
        path.write_bytes(text)
    done = run(program, *PLACE, "--script", str(path))
    assert (done.returncode, done.stdout, done.stderr) == (status, "", f"serve/run: {fault.format(path)}\n")
