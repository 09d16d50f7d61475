"""drive/capture --json: one object, which says what the lines say."""
from __future__ import annotations

import json
from pathlib import Path
from typing import Any

import pytest

from tests import needs
from tests.drive.commands import ran
from tests.paths import TOP, files_of, name_of


def packet_of(moment: dict[str, Any] | None) -> str:
    return f"packet {moment['packet']} at {moment['seconds']}" if moment else "no packet"


def lease_line(lease: dict[str, Any]) -> str:
    said, broken = f"{lease['state']} by {packet_of(lease['granted'])} to {lease['connection']}", lease["broken"]
    if not broken:
        since = "not broken since"
    elif broken["acknowledged"]:
        since = f"broken to {broken['state']} by {packet_of(broken['sent'])}, acknowledged by {packet_of(broken['acknowledged'])}"
    else:
        unanswered = ", not acknowledged" if broken["wants_acknowledgment"] else ""
        since = f"broken to {broken['state']} by {packet_of(broken['sent'])}{unanswered}"
    return f"    lease of {lease['client']}, ClientGuid {lease['guid']}, key {lease['key']}: {said}, {since}"


def lines_of(found: dict[str, Any]) -> list[str]:
    """The lines that an object's values make, by the forms of docs/FORMATS.md."""
    lines = [found["verdict"]]
    for file in found["files"]:
        at = f", packet {file['packet']} at {file['seconds']}" if file["packet"] else ""
        why = f", {file['reason']}" if file["reason"] else ""
        clients = "".join(f", {client}" for client in file["clients"])
        lines.append(f"file {file['server']} {file['path']}: {file['verdict']}{at}{why}{clients}")
        lines += map(lease_line, file["leases"])
    for client in found["clients"]:
        after = f" after packet {client['packet']} at {client['seconds']}" if client["packet"] else ""
        lines.append(f"client {client['address']}: not judged{after}, {client['reason']}")
    return lines


@needs.program("tshark")
@pytest.mark.parametrize("capture", files_of(TOP / "drive" / "captures", "*.pcapng"), ids=name_of)
def test_kept(capture: Path, program: str) -> None:
    """Each line of files and clients, in order; the numbers of the last line; what was left out by its number."""
    told = ran("capture", [capture, "--leasecheck", program])
    had = ran("capture", [capture, "--json", "--leasecheck", program])
    found = json.loads(had.out)
    assert had.status == told.status == found["status"]
    said = told.out.splitlines()
    wanted = lines_of(found)
    assert said[:len(wanted)] == wanted
    assert f"{found['connections']} connections, {found['frames']} frames, " in told.out
    left_out = [int(line.split()[2].replace(",", "")) for line in said if line.startswith("left out: ")]
    assert sorted(found["left_out"].values()) == sorted(left_out)
    assert len(said) == len(wanted) + len(found["remarks"]) + len(left_out) + 1


def test_with_lines() -> None:
    had = ran("capture", ["some.pcapng", "--json", "--lines"])
    assert had.status == 2 and "not allowed with" in had.faults
