"""Captures in which a server that keeps the rules is made to break them: one grant beside another client's lease is raised to
RWH, where what follows shows that the other lease was there still."""
from __future__ import annotations

import struct
from collections.abc import Iterator

from smblease.drive.headers import Command

from tests.drive.talk import Grant, Talk

RWH = struct.pack("<L", 7)


class Shown(Talk):
    """What the packets of a capture made at the server show to be held: there a request comes where the capture has it."""

    @property
    def known(self) -> set[bytes]:
        """The clients of which all that is said of a key is said on one connection and of one file: what others are granted may
        have no order."""
        places: dict[tuple[bytes, bytes], set[object]] = {}
        for grant in self.grants:
            told = {grant.said.connection, grant.file, *(it.connection for it in self.breaks_of(grant))}
            places.setdefault((self.client(grant), grant.key), set()).update(told)
        return {it for it in self.clients.values() if all(len(found) == 2 for (guid, _), found in places.items() if guid == it)}

    @property
    def has_renames(self) -> bool:
        """Whether names may have come to be those of other files."""
        return any(it.command == Command.SET_INFO for it in self.said)

    def is_sure(self, one: Grant) -> bool:
        """It isn't from before a break that was sent before it."""
        return not one.is_breaking and not any(one.asked.line < it.line < one.said.line for it in self.breaks_of(one))

    def is_held(self, lease: Grant, until: int) -> bool:
        """Whether it is there from its grant up to a line: one of its opens is used in a request that comes after that line, the
        server does what that asks, and nothing broke the lease before.

        Three things that may follow leave it open, as the judge has it, when the lease was lost (missed_clashes), so they don't:
        the next break is one that has to be acknowledged, unless the lease is granted again before that; no CLOSE is refused; and
        the connection isn't left, or after a request that was sent after that line too."""
        breaks = [it for it in self.breaks_of(lease) if it.line > lease.said.line]
        opens = {it.said.file_id for it in self.grants_of(lease) if it.said.line <= lease.said.line}
        uses = self.requests_by(opens, lease.said.connection)
        use = next((it for it in uses if it.line > until and it.request in self.done), None)
        if use is None or any(it.line < self.done[use.request] for it in breaks):
            return False
        is_refused = any(it.command == Command.CLOSE and it.request not in self.done for it in uses)
        is_lowered = bool(breaks) and not breaks[0].wants_acknowledgment
        is_known = not is_lowered or self._is_granted_again(lease, use.line, breaks[0].line)
        return is_known and not is_refused and self._left_after(lease.said.connection) > until

    def _left_after(self, connection: str) -> int:
        """The line after which a connection, its session or its tree may have been left: the last that its host had when it sent
        what leaves it, or sent its last frame; or the end of the capture."""
        sent = [it for it in self.said if it.is_request and it.connection == connection]
        leaves = [it.after for it in sent if it.command in (Command.LOGOFF, Command.TREE_DISCONNECT)]
        return min([*leaves, *([sent[-1].after] if connection in self.ends else [])], default=self.said[-1].line)

    def _is_granted_again(self, lease: Grant, since: int, until: int) -> bool:
        return any(since < it.asked.line and it.said.line < until and not it.is_breaking for it in self.grants_of(lease))

    def is_beside(self, one: Grant, other: Grant) -> bool:
        """Whether a grant comes while another client holds a lease on the file, all the time from its request to its response."""
        clients = {self.client(one), self.client(other)}
        is_of_two = len(clients) == 2 and clients <= self.known and one.file == other.file
        is_named = one.file == one.asked.name and self.has_renames
        return (is_of_two and not is_named and other.state > 0 and other.said.line < one.asked.line and self.is_sure(other)
                and self.is_held(other, one.said.line))


def raised(text: str) -> Iterator[str]:
    """The capture with each of its grants raised that is beside a lease of another client on the file."""
    lines = text.splitlines(keepends=True)
    shown = Shown([it.rstrip("\n") for it in lines])
    for one in shown.grants:
        if shown.is_sure(one) and any(shown.is_beside(one, it) for it in shown.grants):
            place = one.said.begin + one.said.lease + 16
            frame = one.said.frame[:place] + RWH + one.said.frame[place + 4:]
            words = lines[one.said.line].split()
            yield "".join([*lines[:one.said.line], " ".join([*words[:8], frame.hex()]) + "\n", *lines[one.said.line + 1:]])
