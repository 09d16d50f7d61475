"""Whose word counts: sessions and durable opens have an owner, and with --user nobody else comes in."""
from __future__ import annotations

import secrets
import socket
import struct
from pathlib import Path
from typing import TYPE_CHECKING

import pytest

from smblease import Context, CreateAsk, LeaseState, Rules, Status, append_context
from smblease.drive.headers import Command
from smblease.serve.server_process import ServerProcess
from tests import needs
from tests.serve.conftest import Connect, Start
from tests.serve.in_process import FrameClient, Sent, server_in
from tests.serve.requests import (ECHO, KEY, Body, acknowledgment, close, create, frame, header, leased, negotiate,
                                  query_directory, read, tree_connect)
from tests.serve.signing_in import set_up
from tests.serve.test_other_clients import USER, ended, smbclient

if TYPE_CHECKING:
    from tests.serve.wire_client import WireClient

BATCH = 9
SIGNING_ENABLED, SIGNING_REQUIRED = 1, 2
LIST: Body = create("", access=0x81, disposition=1, options=1)
NAME, PASSWORD = USER.split("%")


@pytest.mark.parametrize("name", ["guest", "GUEST", "other"])
def test_a_session_that_is_named_by_a_guest(served: ServerProcess, connect: Connect, name: str) -> None:
    """It goes on: a guest is nobody's same user, whatever he calls himself (3.3.5.5.3)."""
    one, other = connect(served), connect(served)
    assert set_up(other, name, previous=one.session).status == Status.SUCCESS
    assert one.status(LIST) == Status.SUCCESS


@needs.package("impacket")
@pytest.mark.parametrize("name, password, status", [
    pytest.param(NAME, PASSWORD, Status.USER_SESSION_DELETED, id="its_user"),
    pytest.param(NAME.upper(), PASSWORD, Status.USER_SESSION_DELETED, id="its_user_in_capitals"),
    pytest.param("guest", None, Status.SUCCESS, id="a_guest")])
def test_a_users_session_that_is_named(start: Start, connect: Connect, name: str, password: str | None, status: Status) -> None:
    """It ends where its own user names it, and else goes on (3.3.5.5.3)."""
    server = start("--user", USER, "--guests")
    one, other = connect(server, user=NAME, password=PASSWORD), connect(server)
    assert set_up(other, name, one.session, password).status == Status.SUCCESS
    assert one.status(LIST) == status


def test_session_ids_are_no_numbers_in_a_row(served: ServerProcess, connect: Connect) -> None:
    """Who knows his own knows none of the others."""
    one = connect(served)
    found = sorted([one.session, *(one.set_up_another_session() for _ in range(20))])
    assert all(later - earlier > 1 << 32 for earlier, later in zip(found, found[1:]))


def test_which_session_ids_are_given(tmp_path: Path, monkeypatch: pytest.MonkeyPatch) -> None:
    """None that a session has, not 0, and not that which stands for the one before (2.2.1.2, 3.3.5.2.7.2)."""
    drawn = iter([0, (1 << 64) - 1, 5, 5, 7])
    monkeypatch.setattr(secrets, "randbits", lambda _: next(drawn))
    (tmp_path / "share").mkdir()
    (tmp_path / "streams").mkdir()
    with server_in(tmp_path / "share", tmp_path / "streams", Rules()) as server:
        sent: Sent = []
        assert [FrameClient(server, guid, sent).session for guid in (b"1" * 16, b"2" * 16)] == [5, 7]


@needs.package("impacket")
def test_a_guest_of_the_name_of_a_user(start: Start, connect: Connect) -> None:
    """A name is proved by its password."""
    server = start("--user", USER, "--guests")
    assert set_up(connect(server), NAME).status == Status.LOGON_FAILURE


def test_a_durable_oplock_of_another(served: ServerProcess, connect: Connect) -> None:
    """A FileId is no secret: an open is given to its owner alone, from any ClientGuid of his (3.3.5.9.7)."""
    one, other = connect(served), connect(served)
    number = one.open(create("file", level=BATCH, contexts=CreateAsk(durable=True).write()))
    one.close()
    again = create("another name", contexts=CreateAsk(reconnect=number).write())
    other.session = set_up(other, "other").session
    other.connect_tree()
    assert other.status(again) == Status.ACCESS_DENIED
    assert connect(served).status(again) == Status.SUCCESS


@pytest.mark.parametrize("more, expected", [(0, Status.SUCCESS), (1, Status.OBJECT_NAME_NOT_FOUND)])
def test_a_durable_open_by_version_2(served: ServerProcess, connect: Connect, more: int, expected: Status) -> None:
    """Where a client sends `DH2C` alone, its FileId counts (2.2.13.2.12)."""
    guid = b"9" * 16
    one = connect(served, guid)
    number = one.open(leased("file", KEY, "RWH", durable=True))
    one.close()
    again = Context(b"DH2C", struct.pack("<QQ16sL", number + more, number + more, b"any", 0))
    contexts = append_context(CreateAsk(KEY, LeaseState.NONE).write(), again)
    assert connect(served, guid).status(create("file", level=0xFF, contexts=contexts)) == expected


def test_a_durable_lease_of_another(served: ServerProcess, connect: Connect) -> None:
    """Of a lease the ClientGuid has to be the same too."""
    guid = b"9" * 16
    one, other = connect(served, guid), connect(served)
    number = one.open(leased("file", KEY, "RWH", durable=True))
    one.close()
    again = create("file", level=0xFF, contexts=CreateAsk(KEY, LeaseState.NONE, reconnect=number).write())
    assert other.status(again) == Status.OBJECT_NAME_NOT_FOUND
    one = connect(served, guid)
    guest, one.session = one.session, set_up(one, "other").session
    one.connect_tree()
    assert one.status(again) == Status.ACCESS_DENIED
    one.session = guest
    one.connect_tree()
    assert one.status(again) == Status.SUCCESS


@needs.program("smbclient")
@needs.package("impacket")
@pytest.mark.parametrize("words, user, failures", [
    pytest.param(["--user", USER], "guest%", 1, id="no_guests"), pytest.param(["--user", USER], USER, 0, id="the_user"),
    pytest.param(["--user", USER, "--guests"], "guest%", 0, id="guests"),
    pytest.param([], "guest%", 0, id="guests_where_nobody_is_named"),
])
def test_guests(start: Start, words: list[str], user: str, failures: int) -> None:
    status, output = ended(smbclient(start(*words), "ls", user))
    assert (output.count("NT_STATUS_LOGON_FAILURE"), status) == (failures, failures), output


def test_guests_without_a_user(program: str) -> None:
    from tests.serve.test_command_line import PLACE, run  # pylint: disable=import-outside-toplevel
    done = run(program, *PLACE, "--guests")
    assert (done.returncode, done.stderr) == (2, "serve/run: --guests goes with --user; without one all are guests\n")


@pytest.fixture(scope="module")
def for_the_user(start_for_all: Start) -> ServerProcess:
    return start_for_all("--user", USER)


@pytest.fixture
def signing(for_the_user: ServerProcess, connect: Connect) -> "WireClient":
    """A client whose session signs."""
    return connect(for_the_user, user=NAME, password=PASSWORD)


@needs.package("impacket")
@pytest.mark.parametrize("has_file", [True, False], ids=["in_a_file", "in_a_variable"])
def test_a_password_that_is_not_on_the_command_line(start: Start, connect: Connect, tmp_path: Path,
                                                    monkeypatch: pytest.MonkeyPatch, has_file: bool) -> None:
    """Everybody can read that while the server runs. A file counts before the variable."""
    (tmp_path / "password").write_text(f"{PASSWORD}\nanother line\n", encoding="utf-8")
    monkeypatch.setenv("PASSWD", "another" if has_file else PASSWORD)
    server = start("--user", NAME, *(["--password-file", str(tmp_path / "password")] if has_file else []))
    one = connect(server, user=NAME, password=PASSWORD)
    assert one.answer_to(one.send(LIST, signs=True)).status == Status.SUCCESS


@needs.package("impacket")
def test_a_request_that_is_signed(signing: "WireClient") -> None:
    message = signing.answer_to(signing.send(LIST, signs=True))
    assert message.status == Status.SUCCESS
    assert signing.is_signed(message)


@needs.package("impacket")
@pytest.mark.parametrize("body", [LIST, tree_connect(), create("file"), read(1), close(1), query_directory(1)],
                         ids=["list", "TREE_CONNECT", "CREATE", "READ", "CLOSE", "QUERY_DIRECTORY"])
def test_a_request_that_is_not_signed(signing: "WireClient", body: Body) -> None:
    """A session that signs is refused it (3.3.5.2.4)."""
    assert signing.status(body) == Status.ACCESS_DENIED


@needs.package("impacket")
def test_a_signature_that_is_wrong(signing: "WireClient") -> None:
    assert signing.answer_to(signing.send(LIST, signs=True, damages=True)).status == Status.ACCESS_DENIED


@needs.package("impacket")
def test_a_cancel_that_is_not_signed(start: Start, connect: Connect) -> None:
    """It is passed over; the create goes on waiting."""
    server = start("--user", USER)
    one = connect(server, user=NAME, password=PASSWORD)
    held = one.answer_to(one.send(leased("file", KEY, "RWH"), signs=True))
    assert held.status == Status.SUCCESS
    number = one.send(create("file", share=0), signs=True)
    assert {one.receive().command, one.receive().command} == {Command.OPLOCK_BREAK, Command.CREATE}, "a break, and PENDING"
    one.send_cancel(number)
    assert one.answer_to(one.send(ECHO, signs=True)).status == Status.SUCCESS
    one.send(acknowledgment(KEY, "RW"), signs=True)
    assert one.answer_to(number).status == Status.SHARING_VIOLATION


@needs.package("impacket")
@pytest.mark.parametrize("words, mode", [pytest.param(["--user", USER], SIGNING_ENABLED | SIGNING_REQUIRED, id="user"),
                                         pytest.param(["--user", USER, "--guests"], SIGNING_ENABLED, id="user_and_guests"),
                                         pytest.param([], SIGNING_ENABLED, id="guests")])
def test_what_negotiate_says_of_signing(start: Start, words: list[str], mode: int) -> None:
    place = start(*words).place
    with socket.create_connection((place.host, place.port)) as stream:
        stream.sendall(frame(header(Command.NEGOTIATE, 0, 0, 0) + negotiate(b"g" * 16)[1]))
        assert stream.recv(4096)[4 + 64 + 2] == mode


@needs.program("smbclient")
@needs.package("impacket")
@pytest.mark.parametrize("protection", ["sign", "off"])
def test_smbclient_with_protection(start: Start, protection: str) -> None:
    """It wants a mechListMIC of a session that is signed (RFC 4178, 5)."""
    status, output = ended(smbclient(start("--user", USER), "ls", USER, [f"--client-protection={protection}"]))
    assert (status, "NT_STATUS" in output) == (0, False), output


@needs.package("impacket")
def test_a_user_who_need_not_sign(start: Start, connect: Connect) -> None:
    """With guests beside the user a session signs where its client asks for that; what is signed is signed rightly."""
    one = connect(start("--user", USER, "--guests"), user=NAME, password=PASSWORD)
    assert one.status(LIST) == Status.SUCCESS
    assert one.answer_to(one.send(LIST, signs=True)).status == Status.SUCCESS
    assert one.answer_to(one.send(LIST, signs=True, damages=True)).status == Status.ACCESS_DENIED
