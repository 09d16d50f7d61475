"""What is found in a capture, as one JSON object (docs/CAPTURES.md, "As JSON")."""
from __future__ import annotations

import json
from collections import Counter
from collections.abc import Sequence
from typing import Optional, TypedDict

from smblease.drive.capture_connections import LeftOut
from smblease.drive.capture_findings import ClientFinding, FileFinding, Findings, Verdict
from smblease.drive.capture_leases import BreakFinding, LeaseFinding, Moment


class MomentObject(TypedDict):
    """A packet, and its time."""

    packet: int
    seconds: str


class BreakObject(TypedDict):
    """A break of a lease: what it leaves, its packet, and that of its acknowledgment."""

    state: str
    sent: Optional[MomentObject]
    wants_acknowledgment: bool
    acknowledged: Optional[MomentObject]


class LeaseObject(TypedDict):
    """A lease on an unsafe file: whose it is, what was granted to which address, and what broke it since."""

    client: str
    guid: Optional[str]
    key: str
    state: str
    granted: Optional[MomentObject]
    connection: str
    broken: Optional[BreakObject]


class FileObject(TypedDict):
    """A file: its place, what is decided, why where nothing is, where it is unsafe its packet and time and whether it is by what
    the server granted, its clients, and where it is unsafe its leases."""

    server: str
    path: str
    verdict: str
    reason: Optional[str]
    packet: Optional[int]
    seconds: Optional[str]
    granted: bool
    clients: Sequence[str]
    leases: Sequence[LeaseObject]


class ClientObject(TypedDict):
    """A client that isn't judged, or not after a packet, and why."""

    address: str
    packet: Optional[int]
    seconds: Optional[str]
    reason: str


class CaptureObject(TypedDict):
    """All that is found in a capture."""

    verdict: str
    status: int
    files: Sequence[FileObject]
    clients: Sequence[ClientObject]
    connections: int
    frames: int
    left_out: dict[str, int]
    remarks: Sequence[str]


def _file(found: FileFinding) -> FileObject:
    server, _, path = found.place.strip().partition(" ")
    return {"server": server, "path": path, "verdict": found.verdict, "reason": found.reason, "packet": found.packet,
            "seconds": found.seconds, "granted": found.is_granted, "clients": found.clients,
            "leases": [_lease(it) for it in found.leases]}


def _moment(found: Moment | None) -> MomentObject | None:
    return {"packet": found.packet, "seconds": found.seconds} if found else None


def _break(found: BreakFinding | None) -> BreakObject | None:
    if found is None:
        return None
    return {"state": found.state, "sent": _moment(found.sent), "wants_acknowledgment": found.wants_acknowledgment,
            "acknowledged": _moment(found.acknowledged)}


def _lease(found: LeaseFinding) -> LeaseObject:
    return {"client": found.client, "guid": found.guid, "key": found.key, "state": found.state, "granted": _moment(found.granted),
            "connection": found.connection, "broken": _break(found.broken)}


def _client(found: ClientFinding) -> ClientObject:
    return {"address": found.address, "packet": found.packet, "seconds": found.seconds, "reason": found.reason}


def json_of(verdict: Verdict, findings: Findings, left_out: Counter[LeftOut], remarks: Sequence[str]) -> str:
    """The object in one line."""
    found: CaptureObject = {
        "verdict": verdict.word,
        "status": verdict.status,
        "files": [_file(it) for it in findings.files],
        "clients": [_client(it) for it in findings.clients],
        "connections": findings.counts.connections,
        "frames": findings.counts.frames,
        "left_out": {it.name.lower(): count for it, count in left_out.items() if count},
        "remarks": [*findings.others, *remarks],
    }
    return json.dumps(found, ensure_ascii=False) + "\n"
