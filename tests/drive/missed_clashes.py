"""Short captures of which more could be said.

In most a server grants RWH beside a lease that it holds still, as its answers show, and that isn't found: the second client is
granted RWH, and shows nothing of that; then the server does a read by the first client's open. What follows on the first
client's connection came after that answer, but the judge lets it have come before the grant. In its twin it comes in a form for
which the judge knows better.
"""
from __future__ import annotations

from collections.abc import Callable
from typing import NamedTuple

from tests.drive import hand_made
from tests.drive.charged_runs import FIRST, SECOND, Lines
from tests.drive.hand_made import H, R, lease

FILE_CLOSED, END_OF_FILE = 0xC0000128, 0xC0000011
BREAKING = 2


def broken_without_acknowledgment(lines: Lines, twin: bool) -> None:
    """The next break needs no acknowledgment; in the twin it does."""
    lines.answers(FIRST, hand_made.notification(FIRST, R | H, 0, flags=int(twin)))


def close_that_is_refused(lines: Lines, twin: bool) -> None:
    """The server has ended the open by itself; in the twin the client closes it."""
    if twin:
        lines.closes(FIRST, 10)
    else:
        lines.asks(FIRST, hand_made.close(80, hand_made.file_id(10)))
        lines.answers(FIRST, hand_made.refused(6, 80, FILE_CLOSED))


def connection_that_ends(lines: Lines, twin: bool) -> None:
    """In the twin the client's host had acknowledged an answer after the grant when it sent its last message."""
    if twin:
        lines.reads(FIRST, 10)
    lines.ends(FIRST)


def opened_again_while_it_breaks(twin: bool) -> str:
    """A capture in which the server keeps the rules, and which isn't judged: while a break waits for its acknowledgment, the
    client opens the file once more under the key, and closes the first open before it has the answer, so that no open seems to
    be left when it acknowledges the break. In the twin it closes that later."""
    lines = Lines()
    lines.opens(FIRST, 10, R | H)
    lines.answers(FIRST, hand_made.notification(FIRST, R | H, R))
    lines.asks_to_open(FIRST, 11)
    if not twin:
        lines.asks(FIRST, hand_made.close(80, hand_made.file_id(10)))
    lines.answers(FIRST, hand_made.created(11, 11, lease(FIRST, R | H, BREAKING)))
    if twin:
        lines.asks(FIRST, hand_made.close(80, hand_made.file_id(10)))
    lines.answers(FIRST, hand_made.closed(80))
    lines.asks(FIRST, hand_made.acknowledgment(90, FIRST, R))
    lines.answers(FIRST, hand_made.acknowledged(90, FIRST, R))
    return lines.text()


def read_by_the_first(is_empty: bool) -> str:
    """A clash that is found: the first client's reads show its lease, those from the end of an empty file on as well."""
    lines = Lines()
    lines.asks_to_open(FIRST, 10, R | H)
    lines.grants(FIRST, 10, R | H)
    lines.asks_to_open(SECOND, 20)
    lines.grants(SECOND, 20)
    for number in (60, 61):
        lines.asks(FIRST, hand_made.read(number, 10))
        lines.answers(FIRST, hand_made.refused(8, number, END_OF_FILE) if is_empty else hand_made.read_done(number, b"abc"))
    return lines.text()


class Missed(NamedTuple):
    """What follows in a capture, and the bound that lets it come earlier than it can have come."""

    follows: Callable[[Lines, bool], None]
    why: str

    def text(self, twin: bool = False) -> str:
        lines = Lines()
        lines.opens(FIRST, 10, R | H)
        lines.asks_to_open(SECOND, 20)
        lines.grants(SECOND, 20)
        lines.reads(FIRST, 10)
        self.follows(lines, twin)
        return lines.text()


MISSED = (
    Missed(broken_without_acknowledgment, "held_by_break: the change may come from 0 on, and not from the last request that "
                                          "shows the lease and is answered on the connection before the break"),
    Missed(close_that_is_refused, "closed_by: the doubt comes from 0 on, and not from the last request that shows the open"),
    Missed(connection_that_ends, "ended_with: the doubt comes from the last message that the client's host had acknowledged, and "
                                 "not from the last request that the server answered on the connection"),
)
