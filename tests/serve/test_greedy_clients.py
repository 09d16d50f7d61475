"""What one client may take of what all have: memory, clients of the machine, time, and tries of a password."""
from __future__ import annotations

import socket
import struct
import subprocess
import uuid
from pathlib import Path
from typing import TYPE_CHECKING

import pytest

from smblease import Context, CreateAsk, LeaseState, Rules, Status, append_context
from smblease.drive.faults import DriveFault
from smblease.drive.headers import RELATED, Command, Message
from smblease.serve import connection, session_wait
from smblease.serve.password_brake import SECONDS, TRIES, PasswordBrake
from smblease.serve.server_process import ServerProcess
from smblease.serve.status_error import StatusError
from tests import needs
from tests.paths import TOP
from tests.serve.conftest import Connect, Start
from tests.serve.in_process import FrameClient, Sent, Transport, server_in
from tests.serve.requests import (ECHO, Body, close, compound, create, frame, header, leased, lock, negotiate, ntlm_tokens,
                                  query_directory, read, session_setup, write)
from tests.serve.test_other_clients import USER

if TYPE_CHECKING:
    from tests.serve.wire_client import WireClient

MIB = 1 << 20
# what a transfer of so much costs (MS-SMB2 3.1.5.2)
MIB_CHARGE = 16
BATCH = 9
NAME, PASSWORD = USER.split("%")


def collect_credits(client: "WireClient") -> None:
    """Each request is given more than it costs."""
    for _ in range(30):
        assert client.status(ECHO) == Status.SUCCESS


def most_memory(server: ServerProcess) -> int:
    """The most bytes that the server ever had in memory."""
    lines = Path(f"/proc/{server.process}/status").read_text(encoding="utf-8").splitlines()
    return next(int(line.split()[1]) * 1024 for line in lines if line.startswith("VmHWM"))


def test_clients_that_do_not_read(served: ServerProcess, connect: Connect) -> None:
    """Their requests wait until they read; then each is answered."""
    first = connect(served)
    file_id = first.open(create("file"))
    for offset in range(0, MIB, 65536):
        first.ask(write(file_id, offset, bytes(65536)))
    before, greedy = most_memory(served), [connect(served) for _ in range(8)]
    numbers = []
    for client in greedy:
        opened = client.open(create("file"))
        collect_credits(client)
        numbers = [client.send(read(opened, MIB), charge=MIB_CHARGE) for _ in range(40)]
    assert first.status(ECHO) == Status.SUCCESS
    assert most_memory(served) - before < 64 * MIB
    assert {len(greedy[-1].answer_to(number).data) for number in numbers} == {80 + MIB}


def test_sessions_that_are_half_made(served: ServerProcess, connect: Connect) -> None:
    """What they need is bounded for all together: the newest is refused, until others are gone."""
    first = connect(served)
    before, streams, statuses = most_memory(served), [raw(served) for _ in range(24)], set()
    token = ntlm_tokens("guest")[0] + bytes(60000)
    for stream in streams:
        stream.sendall(frame(header(Command.NEGOTIATE, 0, 0, 0) + negotiate(b"g" * 16)[1]))
        for number in range(1, 65):
            answer_of(stream)
            stream.sendall(frame(header(Command.SESSION_SETUP, number, 0, 0) + session_setup(token)[1]))
        statuses.add(answer_of(stream).status)
    assert statuses == {Status.MORE_PROCESSING_REQUIRED, Status.INSUFFICIENT_RESOURCES}
    assert most_memory(served) - before < 80 * MIB
    assert first.status(ECHO) == Status.SUCCESS
    for stream in streams:
        stream.close()
    assert connect(served).status(create("file")) == Status.SUCCESS


def answer_of(stream: socket.socket) -> Message:
    length, = struct.unpack(">L", stream.recv(4, socket.MSG_WAITALL))
    return Message(stream.recv(length, socket.MSG_WAITALL))


def test_halves_of_frames(tmp_path: Path, monkeypatch: pytest.MonkeyPatch) -> None:
    """Those of clients without a session are bounded for all together; past that the newest is closed."""
    monkeypatch.setattr(session_wait, "MOST_WITHOUT_SESSION", 3 * 60000)
    with server_in(*folders(tmp_path), Rules()) as server:
        member = FrameClient(server, b"1" * 16, [])
        there = [connection.Connection(server) for _ in range(4)]
        for one in there:
            one.connection_made(Transport(member, []))
            one.data_received(struct.pack(">L", 65000) + bytes(50000))
        assert [it.is_open for it in there] == [True, True, True, False]
        member.connection.data_received(struct.pack(">L", 65000) + bytes(50000))
        there[0].close()
        there[1].data_received(bytes(5000))
        assert (member.connection.is_open, there[1].is_open) == (True, True)


def test_lists_that_are_begun(tmp_path: Path, monkeypatch: pytest.MonkeyPatch) -> None:
    """A list of any length can be had, and no second one beside it that makes them too long together."""
    monkeypatch.setattr("smblease.serve.query_directory.MOST_LISTED", 6)
    share, streams = folders(tmp_path)
    for number in range(6):
        (share / f"file-{number}").touch()
    with server_in(share, streams, Rules()) as server:
        sent: Sent = []
        one = FrameClient(server, b"1" * 16, sent)
        for _ in range(2):
            one.give(create("", access=0x81, disposition=1, options=1))
        first, second = (message.number(128, 8) for _, message in sent)
        for body in (query_directory(first, length=400), query_directory(second), close(first), query_directory(second),
                     query_directory(second, length=MIB + 1)):
            one.give(body)
    assert [message.status for _, message in sent[2:]] == [
        Status.SUCCESS, Status.INSUFFICIENT_RESOURCES, Status.SUCCESS, Status.SUCCESS, Status.INVALID_PARAMETER]


def folders(below: Path) -> tuple[Path, Path]:
    share, streams = below / "share", below / "streams"
    share.mkdir()
    streams.mkdir()
    return share, streams


def test_a_compound_that_asks_for_too_much(served: ServerProcess, connect: Connect) -> None:
    """Its connection is closed; another one is served."""
    one, other = connect(served), connect(served)
    file_id = one.open(create("file"))
    one.ask(write(file_id, MIB - 1, b"x"))
    collect_credits(one)
    before = most_memory(served)
    one.stream.sendall(compound(one.number, one.session, one.tree, [read(file_id, MIB)] * 30, MIB_CHARGE))
    assert other.status(ECHO) == Status.SUCCESS
    assert most_memory(served) - before < 64 * MIB


@pytest.mark.long
def test_durable_opens_of_many_that_are_away(served: ServerProcess, connect: Connect) -> None:
    """4,096 are kept of all clients; the ones that were left first give way."""
    guids = [uuid.UUID(int=number + 1) for number in range(66)]
    numbers: dict[int, list[int]] = {}
    for guid in guids:
        one = connect(served, guid.bytes)
        numbers[guid.int] = [one.open(leased(f"file-{guid.int}-{place}", uuid.UUID(int=place + 1), "RWH", durable=True))
                             for place in range(64)]
        one.close()
    connect(served)
    for guid, place, expected in ((guids[65], 63, Status.SUCCESS), (guids[2], 0, Status.SUCCESS),
                                  (guids[1], 63, Status.OBJECT_NAME_NOT_FOUND)):
        again = CreateAsk(uuid.UUID(int=place + 1), LeaseState.NONE, reconnect=numbers[guid.int][place]).write()
        name = f"file-{guid.int}-{place}"
        assert connect(served, guid.bytes).status(create(name, level=0xFF, contexts=again)) == expected


def test_durable_opens_of_one_that_is_away(served: ServerProcess, connect: Connect) -> None:
    """The 64 newest are kept."""
    guid, one = b"6" * 16, connect(served, b"6" * 16)
    keys = [uuid.UUID(int=number + 1) for number in range(70)]
    numbers = [one.open(leased(f"file-{key.int}", key, "RWH", durable=True)) for key in keys]
    one.close()
    one = connect(served, guid)
    statuses = [one.status(create(f"file-{key.int}", level=0xFF, contexts=CreateAsk(key, reconnect=number).write()))
                for key, number in zip(keys, numbers)]
    assert statuses == [Status.OBJECT_NAME_NOT_FOUND] * 6 + [Status.SUCCESS] * 64


def test_oplocks_of_one_client(served: ServerProcess, connect: Connect) -> None:
    """Each is a client of the manager; more than a byte counts are granted."""
    one = connect(served)
    assert [one.ask(create(f"file-{number}", level=BATCH)).number(66, 1) for number in range(300)] == [BATCH] * 300
    assert connect(served).status(ECHO) == Status.SUCCESS


@pytest.mark.parametrize("count, expected", [(32, Status.SUCCESS), (33, Status.INVALID_PARAMETER),
                                             (5000, Status.INVALID_PARAMETER)])
def test_contexts_of_a_create(served: ServerProcess, connect: Connect, count: int, expected: Status) -> None:
    text = b""
    for number in range(min(count, 33)):
        text = append_context(text, Context(struct.pack("<L", number), bytes(8)))
    if count > 33:
        one = struct.pack("<LHHHHL4s4x", 24, 16, 4, 0, 24, 0, b"many")
        text = one * (count - 33) + text
    assert connect(served).status(create("file", contexts=text)) == expected


def test_locks_of_a_file(served: ServerProcess, connect: Connect) -> None:
    """1,024, of all its opens: each new one is compared with all that are there."""
    one = connect(served)
    first, second = one.open(create("file")), one.open(create("file"))
    assert one.status(lock(first, more=range(1, 512))) == Status.SUCCESS
    assert one.status(lock(second, offset=1000, more=range(1001, 1512))) == Status.SUCCESS
    assert one.status(lock(first, offset=5000)) == Status.INSUFFICIENT_RESOURCES
    assert one.status(lock(second, offset=5000)) == Status.INSUFFICIENT_RESOURCES


def raw(server: ServerProcess) -> socket.socket:
    stream = socket.create_connection((server.place.host, server.place.port))
    stream.settimeout(20)
    return stream


def is_closed(stream: socket.socket) -> bool:
    try:
        return stream.recv(65536) == b""
    except ConnectionError:
        return True


def headers(count: int, body: Body, number: int = 0, session: int = 0, tree: int = 0) -> bytes:
    command, text = body
    text += bytes(-len(text) % 8)
    return frame(b"".join(header(command, number + place, session, tree, 64 + len(text) if place < count - 1 else 0,
                                 RELATED if place else 0) + text for place in range(count)))


@pytest.mark.parametrize("body", [negotiate(b"g" * 16), (Command.CANCEL, struct.pack("<HH", 4, 0))], ids=["negotiate", "cancel"])
def test_two_headers_before_negotiate(served: ServerProcess, body: Body) -> None:
    with raw(served) as stream:
        stream.sendall(headers(2, body))
        assert is_closed(stream)


@pytest.mark.parametrize("length, closes", [(65536, False), (65537, True)])
def test_a_long_frame_without_a_session(served: ServerProcess, length: int, closes: bool) -> None:
    """It is refused by its length, before its bytes come."""
    with raw(served) as stream:
        stream.settimeout(1 if not closes else 20)
        stream.sendall(struct.pack(">L", length))
        if closes:
            assert is_closed(stream)
        else:
            with pytest.raises(TimeoutError):
                stream.recv(1)


@pytest.mark.parametrize("count, closes", [(1024, False), (1025, True)])
def test_headers_of_a_frame(served: ServerProcess, connect: Connect, count: int, closes: bool) -> None:
    one = connect(served)
    one.stream.sendall(headers(count, (Command.CANCEL, struct.pack("<HH", 4, 0)), one.number, one.session, one.tree))
    if closes:
        assert is_closed(one.stream)
    else:
        assert one.status(ECHO) == Status.SUCCESS


@needs.package("impacket")
def test_wrong_passwords(start: Start, connect: Connect) -> None:
    """After some of them none is looked at for a while, not even the right one."""
    server = start("--user", USER)
    for _ in range(TRIES):
        with pytest.raises(DriveFault, match="LOGON_FAILURE"):
            connect(server, user=NAME, password="wrong")
    with pytest.raises(DriveFault, match="ACCOUNT_LOCKED_OUT"):
        connect(server, user=NAME, password=PASSWORD)


def test_the_brake_on_wrong_passwords() -> None:
    """It is of one address, and ends with time."""
    now = 0.0
    brake = PasswordBrake(lambda: now)
    for _ in range(TRIES):
        brake.check("a")
        brake.failed("a")
    with pytest.raises(StatusError, match="ACCOUNT_LOCKED_OUT"):
        brake.check("a")
    brake.check("b")
    now = SECONDS - 1
    with pytest.raises(StatusError):
        brake.check("a")
    now = SECONDS + 1
    brake.check("a")


def test_links_in_a_folder(program: str, connect: Connect, tmp_path: Path) -> None:
    """They aren't followed, and that is said."""
    (tmp_path / "folder/below").mkdir(parents=True)
    (tmp_path / "folder/file").write_bytes(b"file")
    (tmp_path / "secret").write_bytes(b"secret")
    (tmp_path / "folder/link").symlink_to(tmp_path / "secret")
    (tmp_path / "folder/below/nowhere").symlink_to(tmp_path / "nothing")
    (tmp_path / "folder/up").symlink_to(tmp_path)
    server = ServerProcess(program, words=["--folder", str(tmp_path / "folder")])
    one = connect(server)
    assert one.ask(read(one.open(create("file", disposition=1)))).data[80:] == b"file"
    assert [one.status(create(name, disposition=1)) for name in ("link", "below\\nowhere", "up\\secret", "up")] == [
        Status.OBJECT_NAME_NOT_FOUND, Status.OBJECT_NAME_NOT_FOUND, Status.OBJECT_PATH_NOT_FOUND, Status.OBJECT_NAME_NOT_FOUND]
    server.close()
    assert server.status == 0
    assert sorted(server.complaints.splitlines()) == [
        f"{tmp_path}/folder/{name}: a link, which isn't followed" for name in ("below/nowhere", "link", "up")]


def test_help_says_what_is_limited() -> None:
    told = subprocess.run([TOP / "serve/run", "--help"], capture_output=True, text=True, check=True).stdout
    assert "links in it aren't followed" in " ".join(told.split())
