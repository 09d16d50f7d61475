"""Captures in which clients write one name in several cases, and what `--ignore-case` makes of their frames."""
from __future__ import annotations

import random
from pathlib import Path

import pytest

from smblease.drive.capture_names import without_case
from tests import needs
from tests.drive import hand_made
from tests.drive.commands import Ran, ran
from tests.drive.hand_made import RELATED, H, Line, Made, R, W, compound, tree_path
from tests.drive.judging import SAFE, UNSAFE
from tests.drive.scenarios import reads_still

IGNORED = ["--ignore-case"]


def judged(folder: Path, made: Made, words: list[str]) -> Ran:
    path = folder / "one.pcap"
    path.write_bytes(made.data())
    return ran("capture", [path, *words])


def two_clients(made: Made, name: str, share: str = "share") -> tuple[Line, Line]:
    """The second one is granted reads of this name beside the first one's write cache of `f`, without a break."""
    line, other = Line(made, 50001), Line(made, 50002)
    line.begins(1)
    line.opens(3, 11, 0xA1, R | W | H)
    other.begins(2, path=tree_path(share))
    other.opens(3, 22, 0xB2, R | H, name=name)
    return line, other


@needs.program("tshark")
@pytest.mark.parametrize("name, share, is_one", [
    ("F", "share", True), ("f", "SHARE", True), ("F", "Share", True), ("g", "share", False), ("F", "other", False),
])
def test_a_clash_by_two_cases_of_a_name(tmp_path: Path, name: str, share: str, is_one: bool) -> None:
    made = Made()
    line, _ = two_clients(made, name, share)
    reads_still(line)
    assert judged(tmp_path, made, []).status == SAFE
    had = judged(tmp_path, made, IGNORED)
    assert had.status == (UNSAFE if is_one else SAFE)
    assert ("\\SHARE\\F: " in had.out) and "share" not in had.out


@needs.program("tshark")
def test_a_rename_in_another_case(tmp_path: Path) -> None:
    """The name leads to the renamed file no longer: what is opened by it then is another one."""
    made = Made()
    line = Line(made, 50001)
    line.begins(1)
    line.opens(3, 11, 0xA1, R | W | H)
    line.asks(hand_made.rename(5, 11, "G"))
    line.answers(hand_made.renamed(5))
    other = Line(made, 50002)
    other.begins(2)
    other.opens(3, 22, 0xB2, R | H, name="F")
    assert judged(tmp_path, made, IGNORED).status == SAFE


def folded(message: bytes) -> bytes:
    return bytes.fromhex(without_case(message.hex()))


@pytest.mark.parametrize("name, upper", [
    ("name", "NAME"), ("Ordner\\größe", "ORDNER\\GRÖßE"), ("\u03c2\u03c3", "\u03a3\u03a3"), ("\u212a k", "\u212a K"),
    ("\U0001f600x", "\U0001f600X"), ("\u0131\u0130", "\u0131\u0130"), ("", ""),
])
def test_names_of_each_request(name: str, upper: str) -> None:
    """Unit for unit, so that no place in the message moves."""
    context = hand_made.lease(0x61, R)
    assert folded(hand_made.create(3, name, context)) == hand_made.create(3, upper, context)
    assert folded(hand_made.rename(3, 11, name)) == hand_made.rename(3, 11, upper)
    tree, shouted = (hand_made.tree_connect(tree_path(it).encode("utf-16le")) for it in (name, upper))
    assert folded(tree).lower() == shouted.lower() and folded(tree) == folded(shouted)


def test_half_a_pair_and_half_a_unit_stay() -> None:
    for data in (b"\x3d\xd8a\0", b"a\0\x00\xde", b"a\0b"):
        assert folded(hand_made.create(3, data)) == hand_made.create(3, data.replace(b"a\0", b"A\0"))


def test_each_request_of_a_compound() -> None:
    related = bytearray(hand_made.create(4, "b"))
    related[16] |= RELATED
    parts = [hand_made.create(3, "a"), bytes(related), hand_made.close(5, hand_made.file_id(11))]
    wanted = [hand_made.create(3, "A"), bytes(related).replace(b"b\0", b"B\0"), hand_made.close(5, hand_made.file_id(11))]
    assert folded(compound(parts)) == compound(wanted)


def test_what_has_no_name_stays() -> None:
    for message in (hand_made.created(3, 11, hand_made.lease(0x61, R)), hand_made.read_done(3, b"abc"), hand_made.negotiate(0x61),
                    b"\xfdSMB" + b"a" * 60, b"\xfeSMB", b""):
        assert folded(message) == message


def test_damaged_frames(chooser: random.Random) -> None:
    """They keep their length, and everything but names; folded again they are the same."""
    frames = [hand_made.create(3, "a name", hand_made.lease(0x61, R)), hand_made.rename(3, 11, "name"),
              compound([hand_made.create(3, "a"), hand_made.create(4, "b")])]
    for _ in range(5000):
        frame = bytearray(chooser.choice(frames))
        for _ in range(chooser.randint(1, 4)):
            frame[chooser.randrange(len(frame))] = chooser.randrange(256)
        cut = bytes(frame[:chooser.randint(0, len(frame))]) if chooser.random() < 0.3 else bytes(frame)
        once = folded(cut)
        assert len(once) == len(cut) and once[:64] == cut[:64]
        assert folded(once) == once
