"""Captures that are made by hand, as of a client and of a server; and what drive/capture refuses."""
from __future__ import annotations

import os
import re
from pathlib import Path

import pytest

from smblease.program import judge

from tests import needs
from tests.drive.commands import ran
from tests.drive.hand_made import (H, Line, Made, R, W, create, created, lease, negotiate, negotiated, notification, read,
                                   read_done, tree_connect, tree_connected, tree_path, write, write_done)
from tests.drive.judging import IN_PART, NOTHING_JUDGED, SAFE, UNSAFE
from tests.drive.scenarios import SCENARIOS
from tests.paths import TOP

pytestmark = needs.program("tshark")
KEPT = (TOP / "drive" / "captures" / "lease_outlives_its_open.pcapng").read_bytes()
EMPTY = Made()
Line(EMPTY, 50001)


def file_of(made: Made, folder: Path) -> Path:
    path = folder / "one.pcap"
    path.write_bytes(made.data())
    return path


@pytest.mark.parametrize("name", SCENARIOS)
def test_record_of_a_scenario(name: str, program: str, tmp_path: Path) -> None:
    """Its record is as safe as the capture; each belief has its packet, with that packet's time, and packets come in order."""
    made = Made()
    expected = SCENARIOS[name](made)
    capture = file_of(made, tmp_path)
    for side, is_unsafe in (("client", expected.at_client), ("server", expected.at_server)):
        had = ran("capture", [capture, "--at", side, "--record", tmp_path / "record"])
        text = (tmp_path / "record").read_text(encoding="utf-8")
        verdict = judge(program, text)
        assert ("unsafe by the server's grants" in had.out) == (side == "server" and expected.is_granted), had.out
        assert (had.status == UNSAFE, verdict.rule, verdict.is_safe) == (is_unsafe, 1 if is_unsafe else None, not is_unsafe), text
        lines = text.splitlines()
        packets = [packet_of(remark) for remark, fact in zip(lines, lines[1:]) if fact.startswith("believes ")]
        assert None not in packets and packets == sorted(it or 0 for it in packets), text


def packet_of(remark: str) -> int | None:
    """The packet that a remark names, where its time is that of a packet made by hand; then come its messages."""
    found = re.fullmatch(r"# packet (\d+) at (\d+\.\d+)(?:, [A-Z_]+ (?:request|response|notification))*", remark)
    return int(found.group(1)) if found and round(float(found.group(2)) * 100) == int(found.group(1)) - 1 else None


def conflicting(dialect: int = 0x210, is_encrypted: bool = False) -> Made:
    """Two clients are granted RWH of one file, and one is sent a break."""
    made = Made()
    for number in (1, 2):
        line = Line(made, 50000 + number)
        line.begins(number, dialect)
        if is_encrypted:
            line.asks(b"\xfdSMB" + bytes(80))
            line.answers(b"\xfdSMB" + bytes(80))
        else:
            line.opens(3, number, number, R | W | H)
            line.answers(notification(number, R | W | H, R))
    return made


# each with how many clients are known
NOTHING = {"encrypted": (conflicting(0x300, True).data(), 2), "packets of 128 bytes": (conflicting().data(128), 0)}


@pytest.mark.parametrize(("data", "clients"), NOTHING.values(), ids=NOTHING)
def test_nothing_judged(data: bytes, clients: int, program: str, tmp_path: Path) -> None:
    """It isn't safe; it is said of each client that is known that it isn't judged, and the record is of nobody."""
    path = tmp_path / "one.pcap"
    path.write_bytes(data)
    had = ran("capture", [path, "--record", tmp_path / "record"])
    first, *others = had.out.splitlines()
    assert (had.status, first) == (NOTHING_JUDGED, "nothing judged")
    lost = "client .*: not judged.*, something of it is missing or can't be read"
    assert len([it for it in others if re.fullmatch(lost, it)]) == clients
    text = (tmp_path / "record").read_text(encoding="utf-8")
    assert [it for it in text.splitlines() if not it.startswith("# ")] == []
    assert judge(program, text).is_safe


def test_clients_that_are_judged_in_part(tmp_path: Path) -> None:
    """Two files are clean; of a third client something is missing from a packet on."""
    made = Made()
    for number, dialect in ((1, 0x210), (2, 0x302)):
        line = Line(made, 50000 + number)
        line.begins(number, dialect)
        line.opens(3, number, number, R | W | H, name=f"f{number}")
    third = Line(made, 50003)
    third.begins(3)
    third.opens(3, 3, 3, R, name="g")
    third.misses(100)
    third.asks(read(5, 3))
    had = ran("capture", [file_of(made, tmp_path)])
    first, *others = had.out.splitlines()
    assert (had.status, first) == (IN_PART, "judged in part")
    verdicts = [re.sub(r".*\\(\w+): (safe|not judged, since \S+ isn't), \S+", r"\1 \2", it) for it in others
                if it.startswith("file ")]
    assert verdicts == ["f1 safe", "f2 safe", "g not judged, since 127.0.0.1:50003 isn't"]
    lost = [it for it in others if it.startswith("client ")]
    assert len(lost) == 1 and "127.0.0.1:50003: not judged after packet " in lost[0], others


def test_texts_with_every_byte(program: str, tmp_path: Path) -> None:
    """Names of files and shares, of which no byte breaks the record."""
    made = Made()
    line = Line(made, 50001)
    line.asks(negotiate(1))
    line.answers(negotiated())
    for number in range(256):
        low, high = bytes([number, 0x20]), bytes([0x20, number])
        line.asks(tree_connect(tree_path("share").encode("utf-16le") + low + high))
        line.answers(tree_connected())
        line.asks(create(2 * number + 3, low + high + bytes([number]) * 2, lease(number, R)))
        line.answers(created(2 * number + 3, number, lease(number, R)))
        line.asks(read(2 * number + 4, number))
    had = ran("capture", [file_of(made, tmp_path), "--at", "client", "--record", tmp_path / "record"])
    assert (had.status, had.faults) == (SAFE, "")
    text = (tmp_path / "record").read_text(encoding="utf-8")
    assert judge(program, text).is_safe
    assert [it for it in text.split("\n") if it and not re.fullmatch(r"# [ -\U0010ffff]*|[a-z]+ [0-9a-zRWH -]*", it)] == []
    assert text.count("\n") == len(text.splitlines())


def test_contexts_that_cant_be_read(tmp_path: Path) -> None:
    """It is counted as a frame that can't be read, and its client isn't judged from there on."""
    made = Made()
    line = Line(made, 50001)
    line.begins(1)
    line.opens(3, 11, 1, R | W | H)
    line.asks(create(5, "g", bytes([8]) + lease(2, R)[1:]))
    had = ran("capture", [file_of(made, tmp_path)])
    assert (had.status, had.faults) == (IN_PART, "")
    assert had.out.splitlines()[-2].endswith(", 1 of them unreadable"), had.out
    assert had.out.splitlines()[-1] == "left out: 1 frame that can't be read"
    assert len([it for it in had.out.splitlines() if it.startswith("client 127.0.0.1:50001: not judged after ")]) == 1, had.out


def test_name_of_a_file_that_was_cut(tmp_path: Path) -> None:
    """What tshark says of a file has its name, whatever bytes that has."""
    folder = os.fsencode(tmp_path)
    for name in (b"one\nopened 9 9", b"\xff\xfe.pcapng", b"\r\x1b"):
        path = folder + b"/" + name
        with open(path, "wb") as stream:
            stream.write(KEPT[:len(KEPT) - 7])
        had = ran("capture", [os.fsdecode(path), "--record", tmp_path / "record"])
        assert (had.status, had.faults) == (UNSAFE, ""), had
        assert not [it for it in (tmp_path / "record").read_text(encoding="utf-8").splitlines() if it.startswith("opened 9")]


@pytest.mark.parametrize("length", [1, 1 << 17])
@pytest.mark.parametrize("words", [[], ["--port", "4450"]], ids=["unnamed", "named"])
def test_server_on_another_port(words: list[str], length: int, tmp_path: Path) -> None:
    """It is read as one on port 445 is, whether its port is named or not, also where a message has 128 KiB and more."""
    said = []
    for port in (445, 4450):
        made = Made()
        line = Line(made, 50001, server=port)
        line.begins(1)
        line.opens(3, 11, 1, R | W | H)
        line.asks(write(5, 11, 0, bytes(length)))
        line.answers(write_done(5, length))
        line.asks(read(6, 11))
        line.answers(read_done(6, bytes(length)))
        had = ran("capture", [file_of(made, tmp_path), *words])
        assert (had.status, had.faults) == (SAFE, "")
        said.append(had.out.replace(f"127.0.0.1:{port} ", "SERVER "))
    assert said[0] == said[1]
    assert "1 connections, 12 frames, 0 of them unreadable" in said[0]


def test_several_files(tmp_path: Path) -> None:
    made = Made()
    lines = [Line(made, 50000 + number) for number in range(4)]
    for number, line in enumerate(lines, 1):
        line.begins(number)
    for number, (line, name) in enumerate(zip(lines, ("f", "g", "f", "h")), 1):
        line.opens(3, number, number, R | W | H, name=name)
    lines[0].asks(read(5, 1))
    lines[0].answers(read_done(5, b"abc"))
    had = ran("capture", [file_of(made, tmp_path)])
    verdicts = {found.group(1): found.group(2) for found in re.finditer(r"\\share\\(\w): (\w+)", had.out)}
    assert (had.status, verdicts) == (UNSAFE, {"f": "unsafe", "g": "safe", "h": "safe"})


REFUSED = {
    "no file": ([], None, 1, "drive/capture: "),
    "no capture": ([], b"no capture\n" * 20, 1, "drive/capture: "),
    "no SMB2": ([], EMPTY.data(), 1, "drive/capture: "),
    "no bytes": ([], b"", 1, "drive/capture: "),
    "a side that is none": (["--at", "x"], KEPT, 2, "drive/capture: error: argument --at"),
    "a port that is none": (["--port", "0"], KEPT, 2, "drive/capture: --port"),
    "no place for the record": (["--record", "/none/x"], KEPT, 1, "drive/capture: /none/x"),
}


@pytest.mark.parametrize(("words", "content", "status", "beginning"), REFUSED.values(), ids=REFUSED)
def test_refused(words: list[str], content: bytes | None, status: int, beginning: str, tmp_path: Path) -> None:
    path = tmp_path / "one"
    if content is not None:
        path.write_bytes(content)
    had = ran("capture", [path, *words])
    last = had.faults.splitlines()[-1]
    assert (had.status, had.out, last[:len(beginning)]) == (status, "", beginning), had
    assert "Traceback" not in had.faults


@pytest.mark.parametrize(("length", "status"), [(5001, NOTHING_JUDGED), (12345, NOTHING_JUDGED), (len(KEPT) - 7, UNSAFE)])
def test_capture_that_was_cut(length: int, status: int, tmp_path: Path) -> None:
    """The first two are cut before anybody has a lease."""
    path = tmp_path / "one.pcapng"
    path.write_bytes(KEPT[:length])
    had = ran("capture", [path])
    assert had.status == status and "is read up to packet" in had.out and not had.faults, had
