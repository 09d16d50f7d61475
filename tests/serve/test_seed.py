"""`--seed`: two runs whose clients do the same send the same bytes."""
from __future__ import annotations

import os
import struct
from collections.abc import Callable
from pathlib import Path

import pytest

from tests import needs
from tests.serve.conftest import Start
from tests.serve.listened import listened
from tests.serve.requests import close, create, negotiate, query_info, rename, set_info, write
from tests.serve.seeded import Speaker, converse
from tests.serve.test_other_clients import USER, ended, smbclient

NAME, PASSWORD = USER.split("%")
# 2030-01-01 is 1,893,456,000 s after 1970, which is 11,644,473,600 s after 1601. SMB counts 10,000,000ths.
BEGINNING = (1893456000 + 11644473600) * 10000000
MILLISECOND = 10000
SET = BEGINNING - 5


def as_guest(client: Speaker) -> None:
    client.set_up("guest")


def as_user(client: Speaker) -> None:
    client.set_up(NAME, PASSWORD)


@pytest.mark.parametrize("words, set_up", [
    pytest.param([], as_guest, id="guests"),
    pytest.param(["--user", USER], as_user, id="signed", marks=needs.package("impacket"))])
def test_two_runs(start: Start, words: list[str], set_up: Callable[[Speaker], None]) -> None:
    """All that the server sends, byte for byte; from another seed it is something else, and so it is without one."""
    def sent(*seed: str) -> list[bytes]:
        server = start(*words, *seed)
        found = converse(server.place, set_up)
        server.close()
        return found
    first = sent("--seed", "7")
    assert min(map(len, first)) > 1000
    assert sent("--seed", "7") == first
    assert all(one != other for one, other in zip(sent("--seed", "8"), first))
    assert all(one != other for one, other in zip(sent(), sent()))


@needs.program("smbclient")
def test_two_runs_of_smbclient(start: Start, tmp_path: Path) -> None:
    """What it makes up itself, as its ClientGuid, is in no answer."""
    (tmp_path / "given").write_bytes(b"bytes" * 1000)
    commands = (f"mkdir d; put {tmp_path / 'given'} d\\x; cd d; allinfo x; get x {tmp_path / 'got'}; rename x y; del y; "
                "cd ..; rmdir d")

    def sent(seed: str) -> bytes:
        server = start("--seed", seed)
        with listened(server.place) as found:
            status, output = ended(smbclient(found, commands))
        assert (status, "NT_STATUS" in output) == (0, False), output
        return bytes(found.sent)
    first = sent("7")
    assert len(first) > 5000 and sent("7") == first != sent("8")


def times(client: Speaker, file: int) -> tuple[int, ...]:
    """When a file was made, accessed, written and changed (MS-FSCC 2.4.7)."""
    message = client.ask(query_info(file, 4))
    return tuple(message.number(72 + 8 * place, 8) for place in range(4))


def test_the_clock(start: Start) -> None:
    """It begins in 2030, and each look finds it a millisecond on: a write is seen by its time."""
    place = start("--seed", "1").place
    first, client = Speaker(place, b"g" * 16), Speaker(place, b"h" * 16)
    assert first.ask(negotiate(b"g" * 16)).number(64 + 40, 8) == BEGINNING
    client.set_up("guest")
    held = client.open(create("file"))
    made = times(client, held)
    client.ask(write(held))
    assert len(set(made)) == 1 and BEGINNING < made[0] < BEGINNING + 1000 * MILLISECOND
    assert times(client, held) == (made[0], made[0], made[0] + MILLISECOND, made[0] + MILLISECOND)
    for one in (first, client):
        one.close()


def test_times_that_a_client_sets(start: Start) -> None:
    """They are those that it is shown, until the next change."""
    client = Speaker(start("--seed", "1").place, b"g" * 16)
    client.set_up("guest")
    held = client.open(create("file"))
    made = times(client, held)
    client.ask(set_info(held, 4, struct.pack("<QQQQLL", 0, 0, SET, 0, 0, 0)))
    assert times(client, held)[1:] == (made[1], SET, made[3] + MILLISECOND)
    client.ask(write(held))
    assert times(client, held)[1:] == (made[1], made[3] + 2 * MILLISECOND, made[3] + 2 * MILLISECOND)
    client.close()


def test_a_folder(start: Start) -> None:
    """It changes with each name that comes or goes."""
    client = Speaker(start("--seed", "1").place, b"g" * 16)
    client.set_up("guest")
    folder = client.open(create("folder", options=1))
    made, found = times(client, folder)[2], []
    below = client.open(create("folder\\file", access=0x13019F))
    for body in (query_info(below, 4), rename(below, "folder\\other"), set_info(below, 13, b"\1"), close(below)):
        client.ask(body)
        found.append(times(client, folder)[2] > made)
        made = times(client, folder)[2]
    assert found == [True, True, False, True]
    client.close()


def test_files_that_were_there(start: Start, tmp_path: Path) -> None:
    """They have the time of their last change, and keep the time that they were made when they are written."""
    (tmp_path / "old").write_bytes(b"bytes")
    os.utime(tmp_path / "old", ns=(1600000000 * 10**9, 1500000000 * 10**9))
    client = Speaker(start("--seed", "1", "--folder", str(tmp_path)).place, b"g" * 16)
    client.set_up("guest")
    held = client.open(create("old", disposition=1))
    before = (1500000000 + 11644473600) * 10000000
    assert times(client, held) == (before,) * 4
    client.ask(write(held))
    made, accessed, written, changed = times(client, held)
    assert (made, accessed, written) == (before, before, changed) and written > BEGINNING
    client.close()
