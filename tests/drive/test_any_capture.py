"""Captures as people have them: packets out of order or cut short, compounds, pipes, and what can't be read."""
from __future__ import annotations

import io
import os
import random
import re
import shutil
import stat
import struct
import subprocess
import threading
from collections.abc import Sequence
from pathlib import Path

import pytest

from smblease.drive.progress import Progress
from tests import needs
from tests.drive import hand_made
from tests.drive.commands import Ran, ran
from tests.drive.hand_made import PREVIOUS, H, Line, Made, R, W, compound, lease
from tests.drive.judging import NOTHING_JUDGED, SAFE, UNSAFE
from tests.drive.scenarios import SCENARIOS, reads_still
from tests.paths import TOP

pytestmark = needs.program("tshark")
CAPTURES = TOP / "drive" / "captures"
SORTED = "the packets aren't in the order of their times in the capture: they were put in that order"
PORTS = pytest.mark.parametrize("port", [445, 4450])


def of_capture(folder: Path, data: bytes, words: Sequence[object] = ()) -> Ran:
    path = folder / "one.pcap"
    path.write_bytes(data)
    return ran("capture", [path, *words])


# ---- the order of packets


def renumbered(text: str, order: Sequence[int]) -> str:
    """What is said of a file in which the packets stand in this order, by their numbers in that file."""
    return re.sub(r"packet (\d+)", lambda it: f"packet {order.index(int(it.group(1))) + 1}", text)


@pytest.mark.parametrize("name", ["two caches", "a break that is acknowledged", "a close that doesn't cross",
                                  "a client with two connections", "two clients, gap"])
def test_packets_out_of_order(name: str, chooser: random.Random, tmp_path: Path) -> None:
    """They are put in the order of their times, and keep the numbers that they have in the file."""
    made = Made()
    SCENARIOS[name](made)
    order = list(made.numbers)
    chooser.shuffle(order)
    for side in ("client", "server"):
        ordered = of_capture(tmp_path, made.data(), ["--at", side])
        had = of_capture(tmp_path, made.data(order=order), ["--at", side])
        assert SORTED not in ordered.out
        assert had == Ran(ordered.status, f"{renumbered(ordered.out, order)}{SORTED}\n", "")


def test_two_interfaces(tmp_path: Path) -> None:
    """A file of two interfaces, whose packets come in blocks: what would be a clash in the order of the file."""
    made = Made()
    SCENARIOS["a break that is acknowledged"](made)
    later = [number for number in made.numbers if number > 12]
    had = of_capture(tmp_path, made.data(order=[*made.numbers[:12], *later[4:], *later[:4]]))
    assert (had.status, had.out.splitlines()[0], had.out.splitlines()[-1]) == (SAFE, "safe", SORTED)


def test_packets_of_one_time_keep_their_order(tmp_path: Path) -> None:
    made = Made()
    SCENARIOS["two caches"](made)
    data = bytearray(made.data())
    place = 24
    while place < len(data):
        data[place:place + 8] = struct.pack("<LL", 1000, 0)
        place += 16 + struct.unpack("<L", data[place + 8:place + 12])[0]
    had, timed = of_capture(tmp_path, bytes(data)), of_capture(tmp_path, made.data())
    assert re.sub(r"at [0-9.]+", "", had.out) == re.sub(r"at [0-9.]+", "", timed.out)
    assert had.status == UNSAFE


def test_time_before_the_first_packet(tmp_path: Path) -> None:
    """Times count from the earliest packet."""
    made = Made()
    SCENARIOS["two caches"](made)
    order = [2, 1, *made.numbers[2:]]
    had = of_capture(tmp_path, made.data(order=order))
    assert had.out == f"{of_capture(tmp_path, made.data()).out}{SORTED}\n"
    assert (had.status, had.faults) == (UNSAFE, "")


def test_order_of_a_capture_that_was_cut(tmp_path: Path) -> None:
    """Both are told."""
    made = Made()
    SCENARIOS["two caches"](made)
    had = of_capture(tmp_path, made.data(order=[2, 1, *made.numbers[2:]])[:-3])
    assert SORTED in had.out and "the capture is read up to packet" in had.out.splitlines()[-1], had.out


# ---- whole messages


def frames_in(had: Ran) -> list[str]:
    assert (had.status, had.faults) == (SAFE, "")
    return [line.split(" ")[-1] for line in had.out.splitlines() if line.startswith("frame ")]


def asked_and_answered() -> tuple[list[bytes], list[bytes]]:
    """What clients send in one: a CREATE, a query by its open, and a CLOSE; and the answer."""
    grant = lease(0xA1, R | W | H)
    asked = [hand_made.create(3, "f", grant), hand_made.query(4, PREVIOUS, related=True)]
    answered = [hand_made.created(3, 11, grant), hand_made.queried(4)]
    return asked, answered


@PORTS
@pytest.mark.parametrize("longest", [100, 1460, 60000])
def test_compounds_are_whole(port: int, longest: int, tmp_path: Path) -> None:
    """Compounds of two and three messages, alone and with others in a packet, in one segment and in several."""
    made = Made()
    line = Line(made, 50001, server=port, longest=longest)
    line.begins(1)
    asked, answered = asked_and_answered()
    closes = [*asked, hand_made.close(5, PREVIOUS, related=True)]
    sent = [[compound(asked)], [compound(closes), hand_made.read(6, 11)], [hand_made.read(7, 11), compound(asked)],
            [compound(closes), compound(asked)]]
    for messages in sent:
        line.asks(*messages)
        line.answers(compound(answered))
    frames = frames_in(of_capture(tmp_path, made.data(), ["--lines"]))
    expected = [one.hex() for messages in sent for one in (*messages, compound(answered))]
    assert frames[4:] == expected


@PORTS
def test_clash_behind_a_compound(port: int, tmp_path: Path) -> None:
    made = Made()
    line, other = Line(made, 50001, server=port), Line(made, 50002, server=port)
    line.begins(1)
    asked, answered = asked_and_answered()
    line.asks(compound(asked))
    line.answers(compound(answered))
    line.asks(hand_made.read(5, 11))
    line.answers(hand_made.read_done(5, b"abc"))
    other.begins(2)
    other.opens(3, 22, 0xB2, R | H)
    reads_still(line)
    for side in ("client", "server"):
        had = of_capture(tmp_path, made.data(), ["--at", side])
        assert (had.status, had.faults) == (UNSAFE, "")
        assert "0 of them unreadable" in had.out and "not judged" not in had.out


def test_data_that_files_hold_are_left_out(tmp_path: Path) -> None:
    """Of a READ response and of a WRITE request nothing behind the fixed part is in the lines, also where they end a compound."""
    made = Made()
    line = Line(made, 50001)
    line.begins(1)
    write, done = hand_made.write(3, 11, 0, bytes([0xEE]) * 5000), hand_made.read_done(4, bytes([0xDD]) * 5000)
    query, queried = hand_made.query(2, hand_made.file_id(11)), hand_made.queried(2)
    line.asks(write, compound([query, write]))
    line.answers(done, compound([queried, done]))
    frames = frames_in(of_capture(tmp_path, made.data(), ["--lines"]))[4:]
    assert frames == [write[:112].hex(), compound([query, write])[:-5000].hex(), done[:80].hex(),
                      compound([queried, done])[:-5000].hex()]


# ---- packets that were cut short


@PORTS
@pytest.mark.parametrize("snaplen", [50, 64, 96, 128, 180, 200, 240, 400, 500])
def test_packets_that_were_cut_short(port: int, snaplen: int, tmp_path: Path) -> None:
    """They are counted, whatever they hold, and nobody is judged behind them: there is a clash, which they hide."""
    made = Made()
    line, other = Line(made, 50001, server=port), Line(made, 50002, server=port)
    for number, one in enumerate((line, other), 1):
        one.begins(number)
        one.asks(hand_made.write(2, 11, 0, bytes(100000)))
        one.answers(hand_made.write_done(2, 100000))
    for number, one in enumerate((line, other), 1):
        one.opens(3, number, number, R | W | H)
    line.asks(hand_made.read(5, 1))
    line.answers(hand_made.read_done(5, b"abc"))
    had = of_capture(tmp_path, made.data(snaplen))
    cut = sum(length > snaplen for length in made.lengths)
    assert (had.status, had.faults, had.out.splitlines()[0]) == (NOTHING_JUDGED, "", "nothing judged"), had
    if snaplen > 64:
        assert f"left out: {cut} packets that were cut short when they were captured" in had.out.splitlines()
    assert of_capture(tmp_path, made.data()).status == UNSAFE


def test_what_stands_before_a_cut_is_judged(tmp_path: Path) -> None:
    made = Made()
    line, other = Line(made, 50001), Line(made, 50002)
    line.begins(1)
    line.opens(3, 11, 0xA1, R | W | H)
    other.begins(2)
    other.opens(3, 22, 0xB2, R | H)
    reads_still(line)
    line.asks(hand_made.read(6, 11))
    line.answers(hand_made.read_done(6, b"abc"))
    last = line.asks(hand_made.write(9, 11, 0, bytes(1000)))
    had = of_capture(tmp_path, made.data(500))
    assert had.status == UNSAFE
    assert "left out: 1 packet that was cut short when it was captured" in had.out.splitlines()
    assert made.lengths[last - 1] > 500


# ---- what is left out


def test_reasons_for_what_is_left_out(tmp_path: Path) -> None:
    """Each with how much there is of it: a frame that can't be read isn't counted for another reason too."""
    made = Made()
    lines = [Line(made, 50001 + number) for number in range(4)]
    for number, line in enumerate(lines, 1):
        line.begins(number)
    before = Line(made, 50009, begins=False)
    before.asks(hand_made.read(3, 11))
    lines[0].asks(b"\xfdSMB" + bytes(80))
    lines[0].answers(b"\xfdSMB" + bytes(80), b"\xfdSMB" + bytes(90))
    lines[1].asks(b"\xfcSMB" + bytes(80))
    lines[2].asks(hand_made.create(5, "g", bytes([8]) + lease(2, R)[1:]))
    lines[3].misses(100)
    lines[3].asks(hand_made.read(5, 3))
    said = [it for it in of_capture(tmp_path, made.data()).out.splitlines() if it.startswith("left out: ")]
    assert said == ["left out: 3 frames that are encrypted", "left out: 1 frame that is compressed",
                    "left out: 1 frame that can't be read", "left out: 1 gap, where packets aren't in the capture",
                    "left out: 1 connection without its NEGOTIATE request, so that it isn't known whose it is"]


# ---- addresses, links and times


def records_of(data: bytes) -> list[tuple[bytes, bytes]]:
    """The packets of a file, each with its two words of time."""
    found, place = [], 24
    while place < len(data):
        length = struct.unpack("<L", data[place + 8:place + 12])[0]
        found.append((data[place:place + 8], data[place + 16:place + 16 + length]))
        place += 16 + length
    return found


def file_with(magic: int, link: int, records: Sequence[tuple[bytes, bytes]]) -> bytes:
    head = struct.pack("<LHHlLLL", magic, 2, 4, 0, 0, 262144, link)
    return head + b"".join(time + struct.pack("<LL", len(packet), len(packet)) + packet for time, packet in records)


def test_version_6_of_ip(tmp_path: Path) -> None:
    made = Made()
    SCENARIOS["two caches"](made)
    host = bytes(15) + b"\x01"
    records = [(time, struct.pack(">LHBB", 6 << 28, len(packet) - 20, 6, 64) + host + host + packet[20:])
               for time, packet in records_of(made.data())]
    had, expected = of_capture(tmp_path, file_with(0xA1B2C3D4, 101, records)), of_capture(tmp_path, made.data())
    assert had == Ran(UNSAFE, re.sub(r"127\.0\.0\.1:", "[::1]:", expected.out), "")


def test_nanoseconds_on_a_virtual_network(tmp_path: Path) -> None:
    """Ethernet with a tag (802.1Q), and packets that are three nanoseconds apart."""
    made = Made()
    SCENARIOS["two caches"](made)
    ethernet = bytes(12) + bytes.fromhex("810000050800")
    records = [(struct.pack("<LL", 1700000000, 3 * number), ethernet + packet)
               for number, (_, packet) in enumerate(records_of(made.data()))]
    had, expected = of_capture(tmp_path, file_with(0xA1B23C4D, 1, records)), of_capture(tmp_path, made.data())
    timed = re.sub(r"packet (\d+) at [0-9.]+", lambda it: f"packet {it[1]} at 0.{3 * (int(it[1]) - 1):09}", expected.out)
    assert had == Ran(UNSAFE, timed, "")


# ---- where a capture comes from


def test_standard_input(tmp_path: Path) -> None:
    """A capture from there is read as a file is; also one that isn't in order, which is read again, and one that was cut."""
    path = CAPTURES / "lease_outlives_its_open.pcapng"
    assert ran("capture", ["-"], given=path) == ran("capture", [path])
    made = Made()
    SCENARIOS["two caches"](made)
    for number, data in enumerate((made.data(order=[2, 1, *made.numbers[2:]]), made.data()[:-5], b"", b"no capture\n")):
        one = tmp_path / f"{number}.pcap"
        one.write_bytes(data)
        named, piped = ran("capture", [one]), ran("capture", ["-"], given=one)
        assert piped == Ran(named.status, *(it.replace(str(one), "-") for it in (named.out, named.faults)))


def test_closed_standard_input() -> None:
    line = [str(TOP / "drive" / "capture"), "-"]
    had = subprocess.run(["/bin/sh", "-c", 'exec "$0" "$@" <&-', *line], capture_output=True, text=True, check=False)
    assert (had.returncode, had.stdout, had.stderr) == (1, "", "drive/capture: standard input is closed\n")


def test_folder_for_a_capture(tmp_path: Path) -> None:
    assert ran("capture", [tmp_path]) == Ran(1, "", f"drive/capture: {tmp_path}: Is a directory\n")


def test_pipe_with_a_name(tmp_path: Path) -> None:
    pipe, path = tmp_path / "pipe", CAPTURES / "lease_outlives_its_open.pcapng"
    os.mkfifo(pipe)
    threading.Thread(target=lambda: pipe.write_bytes(path.read_bytes()), daemon=True).start()
    assert ran("capture", [pipe]) == ran("capture", [path])


def test_file_of_keys(tmp_path: Path) -> None:
    """It does what its keys do one by one, and is refused by the first line that is none."""
    path, keys = CAPTURES / "encrypted_smbtorture.pcapng", CAPTURES / "encrypted_smbtorture.keys"
    listed = tmp_path / "keys"
    listed.write_text(f"# three sessions\n\n{keys.read_text(encoding='ascii')}\n", encoding="ascii")
    words = [word for it in keys.read_text(encoding="ascii").split() for word in ("--session-key", it)]
    assert ran("capture", [path, "--keys", listed]) == ran("capture", [path, *words])
    assert ran("capture", [path, "--keys", listed]).status == SAFE
    listed.write_text(f"{keys.read_text(encoding='ascii')}\nno key\n", encoding="ascii")
    number = len(listed.read_text(encoding="ascii").splitlines())
    had = ran("capture", [path, "--keys", listed])
    assert had == Ran(1, "", f"drive/capture: {listed}: line {number} isn't ID:KEY, of 16 and 32 hexadecimal digits\n")
    assert ran("capture", [path, "--keys", tmp_path / "none"]).status == 1


def with_shim(folder: Path, text: str) -> dict[str, str]:
    """An environment in which a script stands before tshark."""
    shim = folder / "tshark"
    shim.write_text(f"#!/bin/sh\n{text}\nexec {shutil.which('tshark')} \"$@\"\n", encoding="ascii")
    shim.chmod(shim.stat().st_mode | stat.S_IXUSR)
    return {**os.environ, "PATH": f"{folder}:{os.environ['PATH']}"}


def test_file_is_read_once(tmp_path: Path) -> None:
    """tshark is started once for a file that is in order."""
    log = tmp_path / "log"
    environment = with_shim(tmp_path, f'echo "$@" >> {log}')
    had = ran("capture", [CAPTURES / "lease_outlives_its_open.pcapng"], environment=environment)
    assert had.status == UNSAFE
    assert len(log.read_text(encoding="utf-8").splitlines()) == 1


def test_fault_of_the_second_reading(tmp_path: Path) -> None:
    """What is put in order is read as any file is: a fault is told."""
    made = Made()
    SCENARIOS["two caches"](made)
    path = tmp_path / "one.pcap"
    path.write_bytes(made.data(order=[2, 1, *made.numbers[2:]]))
    environment = with_shim(tmp_path, 'case "$*" in *ordered.pcapng*) echo "tshark: no more" >&2; exit 2;; esac')
    had = ran("capture", [path], environment=environment)
    assert had == Ran(1, "", f"drive/capture: {path}: no more\n")


# ---- progress


class Terminal(io.StringIO):
    def isatty(self) -> bool:
        return True


def test_progress() -> None:
    """On a terminal one line, which is gone at the end; elsewhere nothing."""
    terminal, file = Terminal(), io.StringIO()
    for stream in (terminal, file):
        progress = Progress(stream)
        progress.says("20,000 packets read")
        progress.says("20,001 packets read")
        progress.ends()
    assert terminal.getvalue() == "\r\x1b[K20,000 packets read\r\x1b[K"
    assert file.getvalue() == ""
    Progress(None).says("nothing")
