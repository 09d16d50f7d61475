"""Which names are one: those that differ in case alone, code unit for code unit, as upcase tables have it."""
from __future__ import annotations

import pytest

from smblease import Status
from smblease.serve.create_parameters import OPEN, OVERWRITE_IF
from smblease.serve.names import folded
from smblease.serve.server_process import ServerProcess
from tests.serve.conftest import Connect
from tests.serve.requests import create, query_directory, read, rename, write

# Letters of the basic plane, but for halves of surrogate pairs.
LETTERS = [chr(code) for code in range(0x10000) if not 0xD800 <= code < 0xE000]


@pytest.mark.parametrize("one, other", [
    pytest.param("k", "\u212a", id="Kelvin"), pytest.param("\u00e5", "\u212b", id="Angstrom"),
    pytest.param("\u00e9", "e\u0301", id="composed"), pytest.param("stra\u00dfe", "STRASSE", id="sharp_s"),
    pytest.param("i", "\u0131", id="dotless_i"), pytest.param("i\u0307", "\u0130", id="i_with_a_dot"),
    pytest.param("s", "\u017f", id="long_s"), pytest.param("\u00b5", "\u03bc", id="micro"),
    pytest.param("\U00010400", "\U00010428", id="beyond_the_basic_plane"), pytest.param("\ufb01", "FI", id="a_ligature"),
])
def test_two_files(shared: ServerProcess, connect: Connect, one: str, other: str) -> None:
    """What empties one leaves the other as it is, also as a stream's name."""
    client = connect(shared)
    for names in ((one, other), (other + "1", one + "1"), (f"file:{one}", f"file:{other}")):
        first = client.open(create(names[0]))
        assert client.status(write(first, 0, b"kept")) == Status.SUCCESS
        assert client.status(create(names[1], disposition=OPEN)) == Status.OBJECT_NAME_NOT_FOUND
        client.open(create(names[1], disposition=OVERWRITE_IF))
        assert client.ask(read(first)).data[80:] == b"kept"


@pytest.mark.parametrize("one, other", [
    ("name", "NAME"), ("\u00e9", "\u00c9"), ("\u00ff", "\u0178"), ("\u0436", "\u0416"), ("\u03c3", "\u03a3"),
    ("\u03c2", "\u03a3"), ("\uff41", "\uff21"),
])
def test_one_file(shared: ServerProcess, connect: Connect, one: str, other: str) -> None:
    client = connect(shared)
    for names in ((one, other), (other + "1", one + "1"), (f"file:{one}", f"file:{other}")):
        client.open(create(names[0]))
        assert client.status(create(names[1], disposition=OPEN)) == Status.SUCCESS


def test_a_stream_with_its_type(shared: ServerProcess, connect: Connect) -> None:
    """$DATA is the type of all streams, and no part of a name (MS-FSCC 2.1.5)."""
    one = connect(shared)
    one.ask(write(one.open(create("typed:stream:$DATA")), 0, b"kept"))
    for name in ("typed:stream", "TYPED:STREAM:$data"):
        assert one.ask(read(one.open(create(name, disposition=OPEN)))).data[80:] == b"kept"
    assert one.status(create("typed:stream:$other", disposition=OPEN)) == Status.OBJECT_NAME_INVALID


@pytest.mark.parametrize("name", ["\ud800", "a\udc00", "\udc00\ud800", "\ud83da"])
def test_half_of_a_surrogate_pair(shared: ServerProcess, connect: Connect, name: str) -> None:
    """Nothing has it in its name."""
    one = connect(shared)
    opened, folder = one.open(create("file", access=0x13019F)), one.open(create("", access=0x81, disposition=1, options=1))
    bodies = [create(name), create(f"file:{name}"), rename(opened, name), query_directory(folder, name)]
    assert [one.status(it) for it in bodies] == [Status.OBJECT_NAME_INVALID] * 4


def test_samba_has_the_same_letters() -> None:
    """What is one letter to Samba is one here. Here are letters too that came to be after its table was made."""
    samba = pytest.importorskip("samba", reason="there is no package samba")
    pairs = [(it, other) for it in LETTERS for other in {it.upper(), it.lower(), it.title()} - {it} if len(other) == 1]
    ones = [(it, other) for it, other in pairs if folded(it) == folded(other)]
    assert [(it, other) for it, other in pairs if not samba.strcasecmp_m(it, other) and (it, other) not in ones] == []
    assert len(ones) < 2 * sum(it.islower() for it in LETTERS) and ("\u212a", "k") not in ones
