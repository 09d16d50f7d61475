"""Which dialect a connection speaks, and what it offers by that (3.3.5.3, 3.3.5.4, 3.3.5.15.12)."""
from __future__ import annotations

import random
import struct
from dataclasses import replace

import pytest

from smblease import Context, CreateAnswer, CreateAsk, LeaseState, Status, append_context
from smblease.drive.headers import Command, Message
from smblease.serve.server_process import ServerProcess
from tests.serve.conftest import Start
from tests.serve.modern import NEEDED, PASSWORD, USER, Modern, is_closed
from tests.serve.negotiating import (DIALECTS, ENCRYPTION, ENCRYPTIONS, PREAUTH, SIGNINGS, Asking, Guard, chosen, contexts_of,
                                     listed, preauth)
from tests.serve.requests import ECHO, EVERY_FILE_ID, KEY, Body, create, frame, leased, read, session_setup, wire, write

pytestmark = NEEDED
ALL = tuple(DIALECTS.values())
LEASING, LARGE_MTU, DIRECTORY_LEASING = 2, 4, 0x20
VALIDATE = 0x140204
SMB2_02, SMB3_00, SMB3_02, SMB3_11 = (DIALECTS[it] for it in ("SMB2_02", "SMB3_00", "SMB3_02", "SMB3_11"))


def agreed(answer: Message) -> tuple[int, int, int, int]:
    """Status, dialect, capabilities, and the most that is read at once."""
    return answer.status, answer.number(68, 2), answer.number(88, 4), answer.number(96, 4)


def capabilities_of(dialect: int) -> int:
    """What is offered to clients that encrypt."""
    if dialect == SMB2_02:
        return 0
    return LEASING | LARGE_MTU | (DIRECTORY_LEASING if dialect >= SMB3_00 else 0) | (
        ENCRYPTION if dialect in (SMB3_00, SMB3_02) else 0)


@pytest.mark.parametrize("dialect", ALL, ids=list(DIALECTS))
def test_each_dialect(every: ServerProcess, modern: Modern, dialect: int) -> None:
    """No leases nor large messages at 2.0.2; leases of folders from 3.0 on; encryption has a capability at 3.0 and 3.0.2."""
    expected = capabilities_of(dialect)
    for asking in (Asking((dialect,)), Asking(tuple(it for it in ALL if it <= dialect))):
        answer = modern(every, asking).negotiate()
        assert agreed(answer) == (Status.SUCCESS, dialect, expected, 65536 if dialect == SMB2_02 else 1 << 20)
        assert [kind for kind, _ in contexts_of(answer)] == ([PREAUTH] if dialect == SMB3_11 else [])


def test_what_a_client_has_not(every: ServerProcess, modern: Modern) -> None:
    """Neither leases of folders nor encryption."""
    answer = modern(every, Asking((SMB3_00,), capabilities=0)).negotiate()
    assert agreed(answer)[2] == LEASING | LARGE_MTU


@pytest.mark.parametrize("words, dialects, expected", [
    ([], ALL, 0x0210), ([], (0x0202, 0x0311), None), (["--max", "SMB3_02"], ALL, 0x0302),
    (["--max", "3.0"], (0x0302, 0x0311), None),
    (["--min", "3.1.1", "--max", "3.1.1"], ALL, 0x0311), (["--min", "SMB3_00", "--max", "SMB3"], (0x0202, 0x0210), None),
    (["--min", "2.0.2"], (0x0202, 0x0300), 0x0202)])
def test_options(start: Start, modern: Modern, words: list[str], dialects: tuple[int, ...], expected: int | None) -> None:
    """The greatest that both have; without options 2.1 alone."""
    answer = modern(start(*words), Asking(dialects)).negotiate()
    assert answer.status == (Status.NOT_SUPPORTED if expected is None else Status.SUCCESS)
    assert expected is None or answer.number(68, 2) == expected


def test_contexts_of_an_answer(every: ServerProcess, modern: Modern) -> None:
    asking = Asking(contexts=(preauth(1), listed(ENCRYPTIONS, 99), listed(SIGNINGS, 0)))
    answers = [modern(every, asking).negotiate() for _ in range(2)]
    assert [(chosen(it, ENCRYPTIONS), chosen(it, SIGNINGS)) for it in answers] == [(0, 0)] * 2
    hashes = [dict(contexts_of(it))[PREAUTH] for it in answers]
    assert [it[:6] for it in hashes] == [struct.pack("<HHH", 1, 32, 1)] * 2 and hashes[0] != hashes[1]


@pytest.mark.parametrize("asking, status", [
    pytest.param(Asking(()), Status.INVALID_PARAMETER, id="no dialects"),
    pytest.param(Asking(contexts=()), Status.INVALID_PARAMETER, id="no contexts"),
    pytest.param(Asking(contexts=(preauth(1), preauth(1))), Status.INVALID_PARAMETER, id="two hashes"),
    pytest.param(Asking(contexts=(preauth(2),)), 0xC05D0000, id="no common hash")])
def test_refused(every: ServerProcess, modern: Modern, asking: Asking, status: int) -> None:
    """A client may try again on the same connection."""
    one = modern(every, asking)
    assert one.negotiate().status == status
    one.asking, one.integrity = Asking(), bytes(64)
    one.begin(USER, PASSWORD)
    assert one.negotiate().status == Status.INVALID_PARAMETER


def test_random_contexts(every: ServerProcess, modern: Modern, chooser: random.Random) -> None:
    """Each is answered or ends its connection; somebody else is answered all the while."""
    bystander = modern(every).begin(USER, PASSWORD)
    for _ in range(60):
        one = modern(every)
        text = chooser.randbytes(chooser.randrange(200))
        one.send(Asking().body(text, chooser.choice((1, 2, 65535))))
        assert one.receive().status != Status.SUCCESS
        one.close()
    assert bystander.status(ECHO) == Status.SUCCESS


def old_negotiate(*names: str) -> bytes:
    """That of SMB 1."""
    dialects = b"".join(b"\x02" + it.encode() + b"\0" for it in names)
    return frame(b"\xffSMB\x72" + bytes(27) + b"\0" + struct.pack("<H", len(dialects)) + dialects)


def test_a_negotiate_of_smb_1(every: ServerProcess, modern: Modern) -> None:
    """It isn't part of the hash."""
    one = modern(every)
    one.stream.sendall(old_negotiate("NT LM 0.12", "SMB 2.002", "SMB 2.???"))
    assert agreed(one.receive())[:2] == (Status.SUCCESS, 0x02FF)
    one.number = 1
    one.begin(USER, PASSWORD)


@pytest.mark.parametrize("words, expected", [(["--min", "2.0.2", "--max", "3.1.1"], 0x0202), ([], None)])
def test_a_negotiate_of_smb_1_that_names_2_0_2(start: Start, modern: Modern, words: list[str], expected: int | None) -> None:
    """That is agreed on, where it is spoken."""
    one = modern(start(*words))
    one.stream.sendall(old_negotiate("NT LM 0.12", "SMB 2.002"))
    if expected is None:
        assert is_closed(one)
        return
    assert agreed(one.receive())[:2] == (Status.SUCCESS, expected)
    one.number = 1
    assert one.log_in("guest").status == Status.SUCCESS


def test_no_leases_at_2_0_2(every: ServerProcess, modern: Modern) -> None:
    """What asks for one is passed over; oplocks are there, and a charge of credits says nothing."""
    one = modern(every, Asking((SMB2_02,))).begin("guest", guard=Guard.NONE)
    answer = one.ask(leased("no leases", KEY, "RWH"))
    assert (answer.status, answer.number(66, 1), CreateAnswer.read(contexts_in(answer)).key) == (Status.SUCCESS, 0, None)
    opened = one.open(create("an oplock", level=9))
    assert one.answer_to(one.send(write(opened, 0, bytes(65536)))).status == Status.SUCCESS
    number = one.send(read(opened, 65536), charge=9)
    one.number = number + 1
    assert len(one.answer_to(number).data) == 80 + 65536
    assert one.status(read(opened, 65537)) == Status.INVALID_PARAMETER


def test_clients_of_2_0_2_without_a_guid(every: ServerProcess, modern: Modern) -> None:
    """They are two clients: an oplock of one is broken for the other."""
    first, second = (modern(every, Asking((SMB2_02,), guid=bytes(16))).begin("guest", guard=Guard.NONE) for _ in range(2))
    first.open(create("of nobody", level=9))
    second.send(create("of nobody"))
    assert first.receive().command is Command.OPLOCK_BREAK


def contexts_in(answer: Message) -> bytes:
    place, length = answer.number(144, 4), answer.number(148, 4)
    return answer.part(place, length) if length else b""


def test_a_lease_of_version_1(every: ServerProcess, modern: Modern) -> None:
    one = modern(every, Asking(guid=b"w" * 16)).begin(USER, PASSWORD)
    answer = CreateAnswer.read(contexts_in(one.ask(leased("of version 1", KEY, "RWH", durable=True))))
    assert (answer.key, answer.state, answer.durable) == (KEY, LeaseState.of("RWH"), True)


def again(file_id: int, guid: bytes) -> bytes:
    """A DH2C of this CreateGuid."""
    return append_context(b"", Context(b"DH2C", struct.pack("<QQ16sL", file_id, file_id, guid, 0)))


@pytest.mark.parametrize("contexts, status", [
    pytest.param(again(1, b"c" * 16), Status.OBJECT_NAME_NOT_FOUND, id="a CreateGuid"),
    pytest.param(again(1 << 40, bytes(16)), Status.OBJECT_NAME_NOT_FOUND, id="no CreateGuid"),
    pytest.param(append_context(b"", Context(b"DH2C", b"")), Status.INVALID_PARAMETER, id="empty"),
    pytest.param(append_context(b"", Context(b"DH2C", bytes(35))), Status.INVALID_PARAMETER, id="short")])
def test_an_open_of_version_2_that_is_to_be_connected_again(every: ServerProcess, modern: Modern, contexts: bytes,
                                                            status: Status) -> None:
    """Where there is none, no new open may stand for it."""
    one = modern(every, Asking()).begin(USER, PASSWORD)
    assert one.status(create("again", contexts=contexts)) == status


def test_an_open_of_version_1_that_is_connected_again_by_version_2(every: ServerProcess, modern: Modern) -> None:
    """It has no CreateGuid (3.3.5.9.12)."""
    one = modern(every, Asking(guid=b"y" * 16)).begin(USER, PASSWORD)
    opened = one.open(create("lasts", level=9, contexts=CreateAsk(durable=True).write()))
    one.close()
    other = modern(every, Asking(guid=b"z" * 16)).begin(USER, PASSWORD)
    assert other.status(create("lasts", contexts=again(opened, b"c" * 16))) == Status.OBJECT_NAME_NOT_FOUND
    assert other.open(create("lasts", contexts=again(opened, bytes(16)))) == opened


def test_leases_of_any_length(every: ServerProcess, modern: Modern) -> None:
    """Those of 32 and 52 bytes alone make a lease, and others are refused, or passed over."""
    one = modern(every, Asking(guid=b"x" * 16)).begin(USER, PASSWORD)
    for length in range(80):
        contexts = append_context(b"", Context(b"RqLs", (bytes([length]) * 16 + bytes([7]) + bytes(63))[:length]))
        answer = one.ask(create(f"length {length}", level=0xFF, contexts=contexts))
        assert answer.status == (Status.SUCCESS if length in (32, 52) else Status.INVALID_PARAMETER)
        if answer.status == Status.SUCCESS:
            assert contexts_in(answer)[24:41] == bytes([length]) * 16 + b"\7"


def validating(asking: Asking, most: int = 24) -> Body:
    data = struct.pack("<L16sHH", asking.capabilities, asking.guid, asking.mode, len(asking.dialects))
    data += struct.pack(f"<{len(asking.dialects)}H", *asking.dialects)
    fixed = struct.pack("<HHL16sLLLLLLLL", 57, 0, VALIDATE, wire(EVERY_FILE_ID), 120, len(data), 0, 0, 0, most, 1, 0)
    return Command.IOCTL, fixed + data


@pytest.mark.parametrize("dialect", [it for it in ALL if it != SMB3_11])
def test_what_was_agreed_on(every: ServerProcess, modern: Modern, dialect: int) -> None:
    asking = Asking(tuple(it for it in ALL if it <= dialect))
    one = modern(every, asking).begin(USER, PASSWORD)
    answer = one.ask(validating(asking))
    capabilities, _, mode, found = struct.unpack("<L16sHH", answer.data[112:])
    assert (answer.status, found, mode, one.is_signed(answer)) == (Status.SUCCESS, dialect, 1, True)
    assert capabilities == capabilities_of(dialect)


OF_3 = Asking((SMB3_00, SMB3_02))


@pytest.mark.parametrize("asking, body", [
    pytest.param(OF_3, validating(replace(OF_3, dialects=(SMB3_00,))), id="dialects"),
    pytest.param(OF_3, validating(replace(OF_3, guid=bytes(16))), id="ClientGuid"),
    pytest.param(OF_3, validating(replace(OF_3, mode=3)), id="mode"),
    pytest.param(OF_3, validating(replace(OF_3, capabilities=0)), id="capabilities"),
    pytest.param(OF_3, validating(OF_3, 23), id="no room"), pytest.param(Asking(), validating(Asking()), id="3.1.1"),
    pytest.param(OF_3, (Command.IOCTL, validating(OF_3)[1][:-2]), id="cut")])
def test_what_was_not_agreed_on(every: ServerProcess, modern: Modern, asking: Asking, body: Body) -> None:
    one = modern(every, asking).begin(USER, PASSWORD)
    one.send(body)
    assert is_closed(one)


@pytest.mark.parametrize("dialect", ALL)
def test_a_session_that_is_to_be_bound(every: ServerProcess, modern: Modern, dialect: int) -> None:
    """There is one channel of a session (3.3.5.5)."""
    one = modern(every, Asking((dialect,))).begin(USER, PASSWORD)
    command, text = session_setup(b"NTLMSSP\0")
    answer = one.ask((command, text[:2] + b"\1" + text[3:]))
    assert (answer.status, one.is_signed(answer)) == (Status.REQUEST_NOT_ACCEPTED, True)
    assert one.status(create("bound")) == Status.SUCCESS
