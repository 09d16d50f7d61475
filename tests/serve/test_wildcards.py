"""Patterns of QUERY_DIRECTORY (MS-SMB2 2.2.33, MS-FSA 2.1.4.4), and that smbd has the same names for them."""
from __future__ import annotations

import random
import struct
from collections.abc import Iterator
from contextlib import closing
from typing import TYPE_CHECKING

import pytest

from smblease import Status
from smblease.drive.headers import Command
from smblease.serve.server_process import ServerProcess
from smblease.serve.wildcards import matches
from tests import needs
from tests.serve.conftest import Connect
from tests.serve.requests import Body, create

if TYPE_CHECKING:
    from tests.serve.wire_client import WireClient

NAMES_INFORMATION, RESTART = 12, 1
# No name that smbd has another, short one for: that would be looked at too.
NAMES = ["abc", "a.txt", "a.b.txt", "ab.txt", "abc.d", "b", "bb.c.d", "k.x", "txt"]
FOLDER = create("", access=0x81, disposition=1, options=1)


@pytest.mark.parametrize("pattern, names, others", [
    pytest.param("*", ["a", "a.b"], [], id="any"), pytest.param("*.*", ["a.b", "a.", ".a"], ["a"], id="any_with_a_dot"),
    pytest.param("A?C", ["abc", "a.c"], ["ac", "abbc"], id="one"), pytest.param("a?", ["ab"], ["a", "abc"], id="one_at_the_end"),
    pytest.param("<.txt", ["a.txt", "a.b.txt", ".txt"], ["a.txt.b", "txt"], id="DOS_STAR_before_a_dot"),
    pytest.param("<", ["abc", "a."], ["a.b"], id="DOS_STAR_stops_at_the_last_dot"),
    pytest.param("<b", ["a.b", "ab", "a.c.b"], ["a.bc", "b.c"], id="DOS_STAR_takes_the_last_dot"),
    pytest.param("a.<", ["a.b", "a.bc"], ["a.b.c", "ab"], id="DOS_STAR_after_the_last_dot"),
    pytest.param(">>>.b", ["a.b", "abc.b", ".b"], ["abcd.b", "ab"], id="DOS_QM_before_a_dot"),
    pytest.param("a>>", ["a", "ab", "abc"], ["abcd", "a.b", "b"], id="DOS_QM_at_the_end"),
    pytest.param('a"b', ["a.b"], ["ab", "a"], id="DOS_DOT_is_a_dot"),
    pytest.param('a"', ["a", "a."], ["ab", "a.b"], id="DOS_DOT_at_the_end"),
    pytest.param('a""', ["a", "a.", "a.."], ["a..."], id="DOS_DOT_twice"),
    pytest.param('<"*', ["a", "a.b", "a.b.c"], [], id="all"),
    pytest.param("[ab]", ["[AB]"], ["a"], id="brackets"), pytest.param("K*", ["kelvin"], ["\u212a"], id="Kelvin"),
    pytest.param("stra\u00dfe", ["STRA\u00dfE"], ["strasse"], id="sharp_s"),
])
def test_a_pattern(pattern: str, names: list[str], others: list[str]) -> None:
    assert [it for it in names if not matches(pattern, it)] == []
    assert [it for it in others if matches(pattern, it)] == []


def test_a_pattern_of_many_stars() -> None:
    """It doesn't take long."""
    assert not matches("*a<" * 100 + "b", "a" * 255)


def listing(folder: bytes, pattern: str) -> Body:
    text = pattern.encode("utf-16le")
    fixed = struct.pack("<HBBL16sHHL", 33, NAMES_INFORMATION, RESTART, 0, folder, 96, len(text), 4096)
    return Command.QUERY_DIRECTORY, fixed + text


def listed(client: "WireClient", folder: bytes, pattern: str) -> list[str]:
    message = client.ask(listing(folder, pattern))
    if message.status in (Status.NO_SUCH_FILE, Status.NO_MORE_FILES):
        return []
    names, data, place, following = [], message.part(72, message.number(68, 4)), 0, 1
    while following:
        following, _, length = struct.unpack_from("<LLL", data, place)
        names.append(data[place + 12:place + 12 + length].decode("utf-16le"))
        place += following
    return sorted(it for it in names if it not in (".", ".."))


def filled(client: "WireClient") -> bytes:
    """The FileId of a folder, which has these names."""
    for name in NAMES:
        assert client.ask(create(name)).status == Status.SUCCESS
    return client.ask(FOLDER).part(128, 16)


@pytest.mark.parametrize("pattern, expected", [
    ("<.txt", ["a.b.txt", "a.txt", "ab.txt"]), ("*.*", [it for it in sorted(NAMES) if "." in it]), ('>"', ["b"]), ("q<", []),
])
def test_a_listing(served: ServerProcess, connect: Connect, pattern: str, expected: list[str]) -> None:
    one = connect(served)
    assert listed(one, filled(one), pattern) == expected


@pytest.fixture
def samba() -> Iterator["WireClient"]:
    """A client of a private smbd."""
    pytest.importorskip("impacket", reason=f"there is no package impacket; {needs.INSTALLS}")
    from smblease.drive.servers import PrivateServer  # pylint: disable=import-outside-toplevel
    from tests.serve.wire_client import WireClient  # pylint: disable=import-outside-toplevel
    with closing(PrivateServer()) as server, closing(WireClient(server.place)) as client:
        yield client


@needs.ROOT
@needs.program("smbd")
def test_smbd_lists_the_same(samba: "WireClient", chooser: random.Random) -> None:
    folder = filled(samba)
    patterns = ["".join(chooser.choice('abt..*?<>"') for _ in range(chooser.randint(2, 5))) for _ in range(200)]
    for pattern in ["*.*", "<.txt", ">>>", 'a"', *patterns]:
        assert listed(samba, folder, pattern) == sorted(it for it in NAMES if matches(pattern, it)), pattern
