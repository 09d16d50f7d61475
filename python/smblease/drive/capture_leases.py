"""What `leasecheck capture` tells of the leases on an unsafe file: what was granted to whom, and what broke it.

>>> one = lease_in("    lease of 10.0.0.1:1, ClientGuid unknown, key 0f-: RH by packet 9 at 0.5 to 10.0.0.1:2, broken to R by "
...                "packet 11 at 0.6, not acknowledged")
>>> one.state, one.granted.packet, one.broken.state, one.broken.acknowledged
('RH', 9, 'R', None)
"""
from __future__ import annotations

import re
from dataclasses import dataclass

_BY = r"packet (?P<{0}packet>\d+) at (?P<{0}seconds>[0-9.]+)"
_STATE = "none|[RWH]+"
_LEASE = re.compile(
    r"    lease of (?P<client>[!-~]+), ClientGuid (?P<guid>[0-9a-f-]+|unknown), key (?P<key>[0-9a-f-]+): "
    rf"(?P<state>{_STATE})(?: by {_BY.format('')})? to (?P<connection>[!-~]+)"
    rf", (?:not broken since|broken to (?P<left>{_STATE})(?: by {_BY.format('broken_')})?"
    rf"(?P<wanted>, not acknowledged|, acknowledged by {_BY.format('given_')})?)")


@dataclass(frozen=True)
class Moment:
    """A packet, and its time in seconds from the first one."""

    packet: int
    seconds: str


@dataclass(frozen=True)
class BreakFinding:
    """A break: what it leaves, where it was sent, whether the client has to acknowledge it, and where it did."""

    state: str
    sent: Moment | None
    wants_acknowledgment: bool
    acknowledged: Moment | None


@dataclass(frozen=True)
class LeaseFinding:
    """A lease: whose it is, what the last grant gave, where that was sent to which address, and the last break since."""

    text: str
    client: str
    guid: str | None
    key: str
    state: str
    granted: Moment | None
    connection: str
    broken: BreakFinding | None

    def __str__(self) -> str:
        return self.text


def lease_in(line: str) -> LeaseFinding | None:
    """The lease that a line tells of, if it does."""
    found = _LEASE.fullmatch(line)
    if not found:
        return None
    guid = None if found["guid"] == "unknown" else found["guid"]
    return LeaseFinding(line, found["client"], guid, found["key"], found["state"], _moment(found, ""), found["connection"],
                        _break(found))


def _moment(found: re.Match[str], prefix: str) -> Moment | None:
    packet = found[f"{prefix}packet"]
    return Moment(int(packet), found[f"{prefix}seconds"]) if packet else None


def _break(found: re.Match[str]) -> BreakFinding | None:
    if not found["left"]:
        return None
    return BreakFinding(found["left"], _moment(found, "broken_"), found["wanted"] is not None, _moment(found, "given_"))
