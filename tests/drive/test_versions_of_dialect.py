"""What stands between a client's machine and the wire: by its dialect, over reconnects, and for what no machine wrote. Expected
bytes are laid out by hand (2.2.13.2.8 to 2.2.13.2.12, 2.2.23.2)."""
from __future__ import annotations

import random
import struct
import uuid

import pytest

from smblease import ClientVersions, Context, CreateAsk, LeaseState, append_context, each_context
from smblease.drive.versions_of_dialect import Versions
from smblease.serve.dialects import Dialect

KEY, GUID = uuid.UUID(int=0x000102030405060708090A0B0C0D0E0F), uuid.UUID(int=77)
RWH, RH, BREAK_WANTS_ACKNOWLEDGMENT = 7, 3, 1
OF_3 = [it for it in Dialect if it >= Dialect.SMB_3_0]


@pytest.fixture
def versions() -> Versions:
    made = Versions()
    made.speaks(Dialect.SMB_3_1_1)
    return made


def asked(state: int = RWH, durable: bool = False, reconnect: int | None = None) -> bytes:
    return CreateAsk(KEY, LeaseState(state), durable, reconnect).write()


def lease(state: int, epoch: int, flags: int = 0) -> Context:
    """Of version 2."""
    return Context(b"RqLs", KEY.bytes + struct.pack("<LLQ16sHH", state, flags, 0, b"", epoch, 0))


def text_of(*contexts: Context) -> bytes:
    text = b""
    for it in contexts:
        text = append_context(text, it)
    return text


def notice(epoch: int, current: int, new: int) -> bytes:
    return struct.pack("<HHL16sLL12x", 44, epoch, BREAK_WANTS_ACKNOWLEDGMENT, KEY.bytes, current, new)


@pytest.mark.parametrize("dialect", [Dialect.SMB_2_0_2, Dialect.SMB_2_1])
def test_every_byte_is_as_the_machine_has_it(dialect: Dialect, chooser: random.Random) -> None:
    """No layer is made, whatever comes."""
    def make() -> ClientVersions:
        raise AssertionError("there is no version 2")
    versions = Versions(make)
    versions.speaks(dialect)
    for data in (asked(durable=True), asked(reconnect=9), notice(5, RWH, RH), *(chooser.randbytes(it) for it in range(200))):
        assert versions.ask(data, GUID) == versions.answered(1, GUID, data) == versions.noticed(data) == data
    versions.closed(1)
    versions.close()


@pytest.mark.parametrize("dialect", OF_3)
def test_contexts_of_a_machine(dialect: Dialect) -> None:
    versions = Versions()
    versions.speaks(dialect)
    durable = Context(b"DH2Q", bytes(16) + GUID.bytes)
    assert versions.ask(asked(durable=True), GUID) == text_of(lease(RWH, 0), durable)
    assert versions.ask(b"", GUID) == b""
    answer = text_of(lease(RH, 0x1234), Context(b"DH2Q", struct.pack("<LL", 60000, 0)))
    taken = {it.name: it.data for it in each_context(versions.answered(5, GUID, answer))}
    assert taken == {b"RqLs": KEY.bytes + struct.pack("<LLQ", RH, 0, 0), b"DHnQ": bytes(8)}
    again = Context(b"DH2C", struct.pack("<QQ16sL", 5, 5, GUID.bytes, 0))
    assert versions.ask(asked(reconnect=5), uuid.uuid4()) == text_of(lease(RWH, 0x1234), again)
    versions.closed(5)
    first = Context(b"DHnC", struct.pack("<QQ", 5, 5))
    assert versions.ask(asked(reconnect=5), uuid.uuid4()) == text_of(lease(RWH, 0x1234), first)


def test_reconnects_that_are_refused(versions: Versions) -> None:
    """The open is given up, and its CreateGuid with it; that of another open stays."""
    for file_id in (5, 6):
        versions.answered(file_id, GUID, text_of(lease(RWH, 1), Context(b"DH2Q", bytes(8))))
    for contexts in (asked(), asked(reconnect=5), b"", RAW["DH2C"], RAW["a lease that is cut"]):
        versions.refused(contexts)
    names = [{it.name for it in each_context(versions.ask(asked(reconnect=it), GUID))} for it in (5, 6)]
    assert names == [{b"RqLs", b"DHnC"}, {b"RqLs", b"DH2C"}]


def test_epochs_over_a_reconnect(versions: Versions) -> None:
    """They are those of the machine's life, also where another dialect comes between."""
    versions.answered(5, GUID, text_of(lease(RWH, 65535)))
    versions.speaks(Dialect.SMB_2_1)
    assert versions.ask(asked(), GUID) == asked()
    versions.speaks(Dialect.SMB_3_0)
    assert versions.ask(asked(), GUID) == text_of(lease(RWH, 65535))
    # (0 comes after 65535)
    assert versions.noticed(notice(0, RWH, RH)) == notice(0, RWH, RH)
    assert versions.ask(asked(), GUID) == text_of(lease(RWH, 0))


def test_breaks_that_are_old(versions: Versions) -> None:
    versions.answered(5, GUID, text_of(lease(RWH, 7)))
    assert versions.noticed(notice(6, RWH, RH)) is None
    assert versions.noticed(notice(8, RWH, RH)) == notice(0, RWH, RH)
    assert versions.noticed(notice(8, RWH, RH)) is None
    assert versions.noticed(notice(8, RH, 0)) == notice(0, RH, 0)


RAW = {
    "version 2": text_of(lease(RWH, 9)), "another context": text_of(Context(b"RqLs", asked()[24:56]), Context(b"MxAc", b"")),
    "DHnQ first": text_of(Context(b"DHnQ", bytes(16)), Context(b"RqLs", asked()[24:56])),
    "DH2C": text_of(Context(b"DH2C", bytes(36))), "a lease that is cut": asked()[:-1], "no contexts at all": b"\xff" * 40,
}


@pytest.mark.parametrize("what", RAW)
def test_contexts_that_no_machine_writes(what: str, versions: Versions) -> None:
    assert versions.ask(RAW[what], GUID) == RAW[what]


def test_any_contexts(versions: Versions, chooser: random.Random) -> None:
    """Bytes that are changed by chance: where they go otherwise than they are, a machine would have written them."""
    for _ in range(3000):
        text = bytearray(asked(durable=chooser.random() < 0.5, reconnect=chooser.choice([None, 7])))
        for _ in range(chooser.randrange(3)):
            text[chooser.randrange(len(text))] = chooser.randrange(256)
        sent = versions.ask(bytes(text), GUID)
        if sent != text:
            names = [it.name for it in each_context(bytes(text))]
            assert names[0] == b"RqLs" and set(names) <= {b"RqLs", b"DHnQ", b"DHnC"}
            assert next(each_context(sent)).data[:20] == next(each_context(bytes(text))).data[:20]


def test_opens_that_are_connected_again(versions: Versions) -> None:
    """By DH2C at dialects of 3 alone; at 2.1 that context says nothing."""
    assert versions.connects_again(asked(reconnect=1)) and versions.connects_again(RAW["DH2C"])
    assert not versions.connects_again(asked(durable=True))
    versions.speaks(Dialect.SMB_2_1)
    assert versions.connects_again(asked(reconnect=1)) and not versions.connects_again(RAW["DH2C"])
