"""The leases that are told of an unsafe file: what was granted, and what broke it, by the packets that did so."""
from __future__ import annotations

from pathlib import Path

import pytest

from tests import needs
from tests.drive import hand_made
from tests.drive.hand_made import H, Line, Made, R, W
from tests.drive.judging import UNSAFE, judged
from tests.drive.test_captured_lines import text_of
from tests.drive.which_file import reads

ONE, OTHER = "01010101-0101-0101-0101-010101010101", "02020202-0202-0202-0202-020202020202"
KEYS = {number: "-".join(f"{number:02x}" * count for count in (4, 2, 2, 2, 6)) for number in (0xA1, 0xB2)}


def at(packet: int) -> str:
    """Packets are a hundredth of a second apart."""
    return f"packet {packet} at 0.{packet - 1:02d}0000000"


def told(client: str, guid: str, key: int, state: str, packet: int, since: str) -> str:
    return f"    lease of {client}, ClientGuid {guid}, key {KEYS[key]}: {state} by {at(packet)} to {client}, {since}"


@needs.program("tshark")
@pytest.mark.parametrize("is_broken", [False, True])
@pytest.mark.parametrize("is_acknowledged", [False, True])
def test_what_was_granted_and_broken(is_broken: bool, is_acknowledged: bool, program: str, tmp_path: Path) -> None:
    """A second client is granted RWH beside a lease that was broken or not; its client acknowledged that or not, and reads on."""
    made = Made()
    line, other = Line(made, 50001), Line(made, 50002)
    line.begins(1)
    other.begins(2)
    granted = line.opens(3, 11, 0xA1, R | W | H)
    broken = line.answers(hand_made.notification(0xA1, R | W | H, R | H)) if is_broken else 0
    given = 0
    if is_broken and is_acknowledged:
        given = line.asks(hand_made.acknowledgment(5, 0xA1, R | H))
        line.answers(hand_made.acknowledged(5, 0xA1, R | H))
    second = other.opens(3, 22, 0xB2, R | W | H)
    reads(line, 7, 11)
    path = tmp_path / "one.pcap"
    path.write_bytes(made.data())
    had = judged(program, text_of(path), "client")
    since = "not broken since"
    if is_broken:
        since = f"broken to RH by {at(broken)}, {f'acknowledged by {at(given)}' if given else 'not acknowledged'}"
    leases = [it for it in had.said if it.startswith("    lease of ")]
    assert (had.status == UNSAFE) == (not is_broken or is_acknowledged)
    if had.status == UNSAFE:
        assert leases == [told("127.0.0.1:50001", ONE, 0xA1, "RWH", granted, since),
                          told("127.0.0.1:50002", OTHER, 0xB2, "RWH", second, "not broken since")]
    else:
        assert not leases
