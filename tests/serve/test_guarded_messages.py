"""Messages that are signed or encrypted at dialects of SMB 3, by hand: what is let through, and what isn't (3.3.5.2)."""
from __future__ import annotations

import random
import struct

import pytest

from smblease import Notification, Status
from smblease.drive.headers import HEADER, RELATED, Command, Message
from smblease.serve.server_process import ServerProcess
from tests.serve.conftest import Start
from tests.serve.modern import EVERY, NEEDED, PASSWORD, USER, Modern, is_closed
from tests.serve.negotiating import DIALECTS, ENCRYPTIONS, SIGNINGS, Algorithm, Asking, Cipher, Guard, listed, preauth
from tests.serve.requests import (CREATES, ECHO, EVERY_FILE_ID, KEY, OTHER_KEY, PLAIN, Body, acknowledgment, close, create, frame,
                                  header, leased, on_open, read, session_setup, tree_connect, write)
from tests.serve.wire_client import file_id, parts_of

pytestmark = NEEDED
LOGOFF: Body = (Command.LOGOFF, ECHO[1])
BY_3 = [Asking((DIALECTS["SMB3_00"],)), Asking((DIALECTS["SMB3_02"],)),
        *(Asking(contexts=(preauth(1), listed(ENCRYPTIONS, it))) for it in Cipher)]
BY_SIGNING = [*BY_3[:2], *(Asking(contexts=(preauth(1), listed(SIGNINGS, it))) for it in Algorithm)]
OF_3 = ["3.0", "3.0.2"]
CIPHERS, SIGNERS = [*OF_3, *(it.name for it in Cipher)], [*OF_3, *(it.name for it in Algorithm)]
ENCRYPT_DATA, IS_GUEST = 4, 1


@pytest.fixture(scope="module")
def signing(start_for_all: Start) -> ServerProcess:
    """What isn't signed is refused."""
    return start_for_all(*EVERY)


@pytest.fixture(scope="module")
def encrypting(start_for_all: Start) -> ServerProcess:
    """What isn't encrypted is refused."""
    return start_for_all(*EVERY, "--encrypt")


@pytest.mark.parametrize("asking", BY_SIGNING, ids=SIGNERS)
def test_signed(signing: ServerProcess, modern: Modern, asking: Asking) -> None:
    """Each answer is signed, that to the last SESSION_SETUP too; what is signed wrongly or not at all is refused."""
    one = modern(signing, asking)
    assert one.negotiate().number(HEADER + 2, 2) == 3
    assert one.is_signed(one.log_in(USER, PASSWORD))
    one.guard = Guard.SIGNED
    one.connect_tree()
    opened = one.ask(create("signed"))
    for body in (write(file_id(opened)), read(file_id(opened))):
        answer = one.ask(body)
        assert (answer.status, one.is_signed(answer), one.was_sealed) == (Status.SUCCESS, True, False)
    assert one.answer_to(one.send(read(file_id(opened)), damages=True)).status == Status.ACCESS_DENIED
    one.guard = Guard.NONE
    assert one.status(read(file_id(opened))) == Status.ACCESS_DENIED
    one.guard, one.key = Guard.SIGNED, bytes(16)
    assert one.status(read(file_id(opened))) == Status.ACCESS_DENIED


@pytest.mark.parametrize("asking", BY_SIGNING, ids=SIGNERS)
def test_a_signed_cancel(signing: ServerProcess, modern: Modern, asking: Asking) -> None:
    """One that is signed wrongly does nothing. No signature of a number that comes twice is by that number."""
    first, second = modern(signing, Asking(guid=b"a" * 16)), modern(signing, asking)
    for it in (first, second):
        it.begin(USER, PASSWORD)
    name = f"cancelled by {len(asking.dialects)} {asking.dialects[0]} {second.algorithm}"
    first.open(leased(name, KEY, "RWH"))
    number = second.send(create(name))
    pending = second.receive()
    assert pending.status == Status.PENDING
    is_by_number = second.algorithm is Algorithm.AES_GMAC
    assert second.is_signed(pending) is not is_by_number and bool(pending.flags & 8) is not is_by_number
    cancel = second.message((Command.CANCEL, ECHO[1]), number=number)
    second.stream.sendall(frame(cancel[:48] + bytes(16) + cancel[64:]))
    assert not second.has_more(0.1)
    second.stream.sendall(frame(cancel))
    answer = second.answer_to(number)
    assert (answer.status, second.is_signed(answer)) == (Status.CANCELLED, True)


@pytest.mark.parametrize("asking", BY_3, ids=CIPHERS)
def test_a_client_that_encrypts(every: ServerProcess, modern: Modern, asking: Asking) -> None:
    """It is answered so, whatever its other requests are."""
    one = modern(every, asking)
    one.negotiate()
    assert one.log_in(USER, PASSWORD).number(HEADER + 2, 2) == 0
    one.guard = Guard.SEALED
    one.connect_tree()
    opened = one.ask(create("encrypted"))
    for data in (b"x", bytes(100000)):
        assert one.answer_to(one.send(write(file_id(opened), 0, data), charge=2)).status == Status.SUCCESS
    answer = one.answer_to(one.send(read(file_id(opened), 100000), charge=2))
    assert (answer.data[80:], answer.flags & 8, one.was_sealed) == (bytes(100000), 0, True)
    assert one.status(create("folder/none", disposition=1)) != Status.SUCCESS and one.was_sealed
    one.guard = Guard.SIGNED
    answer = one.ask(read(file_id(opened), 1))
    assert (answer.status, one.is_signed(answer), one.was_sealed) == (Status.SUCCESS, True, False)
    one.guard = Guard.SEALED
    assert (one.status(LOGOFF), one.was_sealed) == (Status.SUCCESS, True)
    one.send(ECHO)
    assert is_closed(one)


@pytest.mark.parametrize("asking", BY_3, ids=CIPHERS)
def test_encryption_that_is_required(encrypting: ServerProcess, modern: Modern, asking: Asking) -> None:
    """The session says so. What isn't encrypted is refused, signed or not; the answer to SESSION_SETUP is signed."""
    one = modern(encrypting, asking)
    one.negotiate()
    answer = one.log_in(USER, PASSWORD)
    assert (answer.number(HEADER + 2, 2), one.is_signed(answer), one.was_sealed) == (ENCRYPT_DATA, True, False)
    for one.guard in (Guard.NONE, Guard.SIGNED):
        if one.guard is Guard.SIGNED or one.dialect < 0x0311:
            assert one.status(tree_connect()) == Status.ACCESS_DENIED
    one.guard = Guard.SEALED
    one.connect_tree()
    opened = one.open(create("required"))
    one.guard = Guard.SIGNED
    assert one.status(read(opened)) == Status.ACCESS_DENIED
    one.guard = Guard.SEALED
    assert (one.status(close(opened)), one.was_sealed) == (Status.SUCCESS, True)


@pytest.mark.parametrize("asking", [Asking((0x0202,)), Asking((0x0210,)), Asking((0x0300,), capabilities=0), Asking(),
                                    Asking(contexts=(preauth(1), listed(ENCRYPTIONS, 99)))])
def test_a_client_that_can_not_encrypt(encrypting: ServerProcess, modern: Modern, asking: Asking) -> None:
    one = modern(encrypting, asking)
    one.negotiate()
    assert one.ask(session_setup(b"NTLMSSP\0")).status == Status.ACCESS_DENIED


def test_a_guest(every: ServerProcess, modern: Modern) -> None:
    """It has no key: it signs nothing, and encrypts nothing."""
    one = modern(every, BY_3[-1])
    one.negotiate()
    assert one.log_in("guest").number(HEADER + 2, 2) == IS_GUEST
    one.connect_tree()
    assert one.status(create("a guest's")) == Status.SUCCESS
    one.sealing = bytes(32)
    one.guard = Guard.SEALED
    one.send(ECHO)
    assert is_closed(one)


@pytest.mark.parametrize("dialect, ends", [(0x0302, False), (0x0311, True)])
def test_a_tree_that_nothing_guards(every: ServerProcess, modern: Modern, dialect: int, ends: bool) -> None:
    """At 3.1.1 the connection ends (3.3.5.7)."""
    one = modern(every, Asking((dialect,)))
    one.negotiate()
    one.log_in(USER, PASSWORD)
    number = one.send(tree_connect())
    assert is_closed(one) if ends else one.answer_to(number).status == Status.SUCCESS


def test_a_hash_of_other_messages(every: ServerProcess, modern: Modern) -> None:
    """Who changed a message of the set-up has other keys than the server by that."""
    one = modern(every)
    one.negotiate()
    one.integrity = bytes(64)
    assert not one.is_signed(one.log_in(USER, PASSWORD))
    one.guard = Guard.SIGNED
    assert one.status(tree_connect()) == Status.ACCESS_DENIED


def changed(data: bytes, place: int, value: bytes) -> bytes:
    return data[:place] + value + data[place + len(value):]


@pytest.mark.parametrize("place, value", [
    pytest.param(4, b"tag", id="tag"), pytest.param(20, b"nonce", id="nonce"), pytest.param(35, b"x", id="end of the nonce"),
    pytest.param(36, b"\xff\xff", id="length"), pytest.param(42, b"\0", id="flags"), pytest.param(44, bytes(8), id="no session"),
    pytest.param(44, b"unknown ", id="unknown session"), pytest.param(60, b"sealed", id="message"),
    pytest.param(0, b"\xfc", id="name")])
@pytest.mark.parametrize("asking", BY_3[::2], ids=CIPHERS[::2])
def test_a_damaged_transform(every: ServerProcess, modern: Modern, asking: Asking, place: int, value: bytes) -> None:
    """The connection ends."""
    one = modern(every, asking).begin(USER, PASSWORD, Guard.SEALED)
    one.stream.sendall(frame(changed(one.message(ECHO), place, value)))
    assert is_closed(one)


@pytest.mark.parametrize("length", [4, 20, 51, 52, 60, 115])
def test_a_transform_that_is_cut(every: ServerProcess, modern: Modern, length: int) -> None:
    one = modern(every, BY_3[-1]).begin(USER, PASSWORD, Guard.SEALED)
    one.stream.sendall(frame(one.message(ECHO)[:length]))
    assert is_closed(one)


def test_a_transform_that_comes_again(every: ServerProcess, modern: Modern) -> None:
    """Its number is used up, and the connection ends."""
    one = modern(every, BY_3[-1]).begin(USER, PASSWORD, Guard.SEALED)
    data, number = one.message(ECHO), one.number
    one.stream.sendall(frame(data) + frame(data))
    assert one.answer_to(number).status == Status.SUCCESS
    assert is_closed(one)


def test_a_transform_within_a_transform(every: ServerProcess, modern: Modern) -> None:
    one = modern(every, BY_3[-1]).begin(USER, PASSWORD, Guard.SEALED)
    one.stream.sendall(frame(one.sealed(one.message(ECHO))))
    assert is_closed(one)


def test_a_request_of_another_session(every: ServerProcess, modern: Modern) -> None:
    """Within a transform there is but its own (3.3.5.2.7)."""
    one = modern(every, BY_3[-1]).begin(USER, PASSWORD, Guard.SEALED)
    one.stream.sendall(frame(one.sealed(header(13, one.number, 0, 0) + ECHO[1])))
    assert is_closed(one)


def test_damaged_requests_within_transforms(every: ServerProcess, modern: Modern, chooser: random.Random) -> None:
    """Each is answered, or ends its connection; somebody else is answered all the while."""
    bystander, one = (modern(every, BY_3[-1]).begin(USER, PASSWORD, Guard.SEALED) for _ in range(2))
    bodies = [it for it in (*PLAIN, *CREATES, *on_open(one.open(create("damaged")))) if it[0] is not Command.CANCEL]
    for _ in range(400):
        data = bytearray(one.message(chooser.choice(bodies), Guard.NONE))
        for _ in range(chooser.choice((1, 2, 8))):
            data[chooser.randrange(chooser.choice((0, 64)), len(data))] = chooser.choice((0, 1, 0xFF, chooser.randrange(256)))
        length = chooser.choice((len(data), len(data), chooser.randrange(len(data))))
        one.stream.sendall(frame(one.sealed(bytes(data[:length]))))
        one.number += 1
        # (what became a CANCEL has no answer)
        if not one.has_more(0.5) or is_closed(one):
            one.close()
            one = modern(every, BY_3[-1]).begin(USER, PASSWORD, Guard.SEALED)
    assert bystander.status(ECHO) == Status.SUCCESS


@pytest.mark.parametrize("asking", BY_3[1::2], ids=CIPHERS[1::2])
def test_an_encrypted_compound(every: ServerProcess, modern: Modern, asking: Asking) -> None:
    """Its answers come in one transform."""
    one = modern(every, asking).begin(USER, PASSWORD, Guard.SEALED)
    first, second = create("together")[1], close(EVERY_FILE_ID)[1]
    first += bytes(-len(first) % 8)
    data = header(5, one.number, one.session, one.tree, 64 + len(first)) + first
    one.stream.sendall(frame(one.sealed(data + header(6, one.number + 1, 0, 0, 0, RELATED) + second)))
    answers = parts_of(one.receive())
    assert one.was_sealed and [it.status for it in answers] == [Status.SUCCESS] * 2


def is_break(message: Message) -> bool:
    return message.command is Command.OPLOCK_BREAK and message.identifier == (1 << 64) - 1 and not message.session


@pytest.mark.parametrize("server, guard, is_sealed", [("every", Guard.SEALED, True), ("every", Guard.SIGNED, False),
                                                      ("encrypting", Guard.SEALED, True)])
def test_breaks(request: pytest.FixtureRequest, modern: Modern, server: str, guard: Guard, is_sealed: bool) -> None:
    """Those of leases and of oplocks, and STATUS_PENDING, are encrypted where their session is."""
    place = request.getfixturevalue(server)
    one, other = (modern(place, Asking(contexts=BY_3[-1].contexts, guid=it * 16)).begin(USER, PASSWORD, guard)
                  for it in (b"1", b"2"))
    one.open(leased("a lease", KEY, "RWH"))
    oplock = one.open(create("an oplock", level=9))
    number = other.send(leased("a lease", OTHER_KEY, "R"))
    assert (other.receive().status, other.was_sealed) == (Status.PENDING, is_sealed)
    message = one.receive()
    assert is_break(message) and Notification.read(message.data[HEADER:]).key == KEY and one.was_sealed is is_sealed
    assert one.status(acknowledgment(KEY, "R")) == Status.SUCCESS
    assert (other.answer_to(number).status, other.was_sealed) == (Status.SUCCESS, is_sealed)
    other.send(create("an oplock"))
    message = one.receive()
    assert is_break(message) and one.was_sealed is is_sealed
    assert struct.unpack_from("<HB5xQ", message.data, HEADER) == (24, 1, oplock)
