"""A session that authenticates again (3.3.5.5.2), and what is answered in the name of one that is over."""
from __future__ import annotations

from typing import TYPE_CHECKING

import pytest

from smblease import LeaseState, Notification, Status
from smblease.drive.headers import HEADER, Command
from smblease.serve.former_keys import MOST_KEYS
from smblease.serve.server_process import ServerProcess
from tests import needs
from tests.serve.conftest import Connect, Start
from tests.serve.requests import ECHO, KEY, Body, close, create, leased, ntlm_tokens, read, session_setup, write
from tests.serve.signing_in import add_session, exchange, set_up
from tests.serve.test_other_clients import USER

if TYPE_CHECKING:
    from tests.serve.wire_client import WireClient

pytestmark = needs.package("impacket")
NAME, PASSWORD = USER.split("%")
LIST: Body = create("", access=0x81, disposition=1, options=1)
LOGOFF: Body = (Command.LOGOFF, ECHO[1])
IS_GUEST = BINDING = 1


@pytest.fixture
def for_users(start: Start) -> ServerProcess:
    return start("--user", USER)


@pytest.fixture
def signing(for_users: ServerProcess, connect: Connect) -> "WireClient":
    return connect(for_users, user=NAME, password=PASSWORD)


def asked(client: "WireClient", body: Body) -> tuple[int, bool]:
    """The status of a request that is signed, and whether its answer is signed with the same key."""
    message = client.answer_to(client.send(body, signs=True))
    return message.status, client.is_signed(message)


def opened(client: "WireClient", body: Body) -> int:
    message = client.answer_to(client.send(body, signs=True))
    assert message.status == Status.SUCCESS, hex(message.status)
    return message.number(128, 8)


def test_a_session_keeps_its_key_its_opens_and_its_trees(signing: "WireClient", connect: Connect,
                                                         for_users: ServerProcess) -> None:
    """The new key is used for nothing, and what the client caches is still its own."""
    held = opened(signing, leased("file", KEY, "RWH"))
    message, key = exchange(signing, NAME, PASSWORD, signs=True)
    assert (message.status, message.number(HEADER + 2, 2), signing.is_signed(message)) == (Status.SUCCESS, 0, True)
    assert key != signing.key
    assert [asked(signing, it) for it in (write(held), read(held), LIST)] == [(Status.SUCCESS, True)] * 3
    other = connect(for_users, user=NAME, password=PASSWORD)
    other.send(create("file"), signs=True)
    broken = Notification.read(signing.receive().data[HEADER:])
    assert (broken.key, broken.current, broken.new) == (KEY, LeaseState.of("RWH"), LeaseState.of("RH"))


def test_other_requests_while_a_session_authenticates_again(signing: "WireClient") -> None:
    assert asked(signing, session_setup(ntlm_tokens(NAME)[0])) == (Status.MORE_PROCESSING_REQUIRED, True)
    assert asked(signing, LIST) == (Status.SUCCESS, True)


def test_a_users_session_that_becomes_a_guests(start: Start, connect: Connect) -> None:
    """It is signed as it was, and so it is once it is the user's again."""
    one = connect(start("--user", USER, "--guests"), user=NAME, password=PASSWORD)
    held = opened(one, create("file"))
    for name, password, flags in (("", None, IS_GUEST), (NAME, PASSWORD, 0)):
        message, _ = exchange(one, name, password, signs=True)
        assert (message.status, message.number(HEADER + 2, 2)) == (Status.SUCCESS, flags)
        assert [asked(one, it) for it in (write(held), LIST)] == [(Status.SUCCESS, True)] * 2


def test_a_guests_session_that_becomes_the_users(start: Start, connect: Connect) -> None:
    """It had no key, and has one from there on."""
    one = connect(start("--user", USER, "--guests"))
    held = one.open(create("file"))
    message, one.key = exchange(one, NAME, PASSWORD)
    assert (message.status, message.number(HEADER + 2, 2), one.is_signed(message)) == (Status.SUCCESS, 0, True)
    assert [asked(one, it) for it in (write(held), LIST)] == [(Status.SUCCESS, True)] * 2
    assert one.answer_to(one.send(LIST, signs=True, damages=True)).status == Status.ACCESS_DENIED


def test_a_guests_session_that_becomes_anothers(served: ServerProcess, connect: Connect) -> None:
    one = connect(served)
    held = one.open(create("file"))
    assert exchange(one, "other")[0].status == Status.SUCCESS
    assert one.status(write(held)) == Status.SUCCESS


def test_a_wrong_password_ends_the_session(signing: "WireClient", connect: Connect, for_users: ServerProcess) -> None:
    """What it had open is closed (3.3.5.5.3)."""
    opened(signing, create("file", share=0))
    message, _ = exchange(signing, NAME, "wrong", signs=True)
    assert (message.status, signing.is_signed(message)) == (Status.LOGON_FAILURE, True)
    assert asked(signing, LIST) == (Status.USER_SESSION_DELETED, True)
    other = connect(for_users, user=NAME, password=PASSWORD)
    opened(other, create("file", share=0))


def test_a_session_that_another_one_ends(signing: "WireClient", connect: Connect, for_users: ServerProcess) -> None:
    """Where its connection has one more, that goes on; what the session that is over had open is closed."""
    held, first, key = opened(signing, create("file", share=0)), signing.session, signing.key
    add_session(signing, NAME, PASSWORD)
    other = connect(for_users, user=NAME, password=PASSWORD)
    assert set_up(other, NAME, first, PASSWORD).status == Status.SUCCESS
    opened(other, create("file", share=0))
    second, signing.session = signing.session, first
    other_key, signing.key = signing.key, key
    assert [asked(signing, it) for it in (read(held), LIST, LOGOFF)] == [(Status.USER_SESSION_DELETED, True)] * 3
    signing.session, signing.key = second, other_key
    assert signing.answer_to(signing.send(close(held), signs=True)).status != Status.USER_SESSION_DELETED


def test_a_session_that_is_to_be_bound_to_another_connection(signing: "WireClient", connect: Connect,
                                                            for_users: ServerProcess) -> None:
    """Dialect 2.1 has no such thing (3.3.5.5). Who knows the session's key is answered so that he can believe it; it goes on."""
    other = connect(for_users, user=NAME, password=PASSWORD)
    command, text = session_setup(ntlm_tokens(NAME)[0])
    other.session, other.key = signing.session, signing.key
    binding = command, text[:2] + bytes([BINDING]) + text[3:]
    assert asked(other, binding) == (Status.REQUEST_NOT_ACCEPTED, True)
    assert [asked(other, it) for it in ((command, text), LIST)] == [(Status.USER_SESSION_DELETED, True)] * 2
    for body in (binding, LIST):
        message = other.answer_to(other.send(body, signs=True, damages=True))
        assert message.flags & 8 == 0 and message.status in (Status.REQUEST_NOT_ACCEPTED, Status.USER_SESSION_DELETED)
    assert asked(signing, LIST) == (Status.SUCCESS, True)


def test_answers_after_a_logoff(signing: "WireClient") -> None:
    """What isn't signed is answered so."""
    assert asked(signing, LOGOFF) == (Status.SUCCESS, True)
    assert asked(signing, LIST) == (Status.USER_SESSION_DELETED, True)
    message = signing.ask(LIST)
    assert (message.status, message.flags & 8) == (Status.USER_SESSION_DELETED, 0)


def test_a_request_that_waits_when_its_session_ends(signing: "WireClient", connect: Connect, for_users: ServerProcess) -> None:
    opened(signing, leased("file", KEY, "RWH"))
    other = connect(for_users, user=NAME, password=PASSWORD)
    number = other.send(create("file"), signs=True)
    assert other.receive().status == Status.PENDING
    other.send(LOGOFF, signs=True)
    message = other.answer_to(number)
    assert (message.status, other.is_signed(message)) == (Status.USER_SESSION_DELETED, True)


def test_how_many_keys_are_kept(signing: "WireClient") -> None:
    """The newest of a connection; a client of a session before them is answered without a signature."""
    ended = []
    for _ in range(MOST_KEYS + 1):
        ended.append((signing.session, signing.key))
        assert asked(signing, LOGOFF) == (Status.SUCCESS, True)
        add_session(signing, NAME, PASSWORD)
    found = []
    for signing.session, signing.key in ended[:3]:
        found.append(asked(signing, LIST))
    assert found == [(Status.USER_SESSION_DELETED, it) for it in (False, True, True)]
