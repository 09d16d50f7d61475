"""Short captures of runs in which the server keeps the rules, that were charged nevertheless.

Each comes with its twin, which wasn't: there what was wrong doesn't happen. The client at 10.0.0.1 is FIRST and that at
10.0.0.2 SECOND, each with a key of its own for the one file.
"""
from __future__ import annotations

import uuid
from collections.abc import Callable
from typing import NamedTuple

from smblease import CreateAsk

from tests.drive import hand_made
from tests.drive.hand_made import H, R, W, lease, of_session
from tests.drive.taps import CLIENT, SERVER

FIRST, SECOND, THIRD = 1, 2, 3
ALL = R | W | H
REFUSED = 0xC00000D0
LOGOFF, TREE_DISCONNECT = 2, 4


class Lines:
    """A capture, line by line; a connection has the number of its client. Whoever sends had acknowledged all that was sent."""

    def __init__(self) -> None:
        self._lines: list[str] = []
        self._sent: dict[tuple[int, bool], int] = {}
        # of servers, by connections, where they aren't the usual one
        self.addresses: dict[int, str] = {}
        self.begins(FIRST)
        self.begins(SECOND)

    def text(self) -> str:
        return "".join(f"{line}\n" for line in self._lines)

    def begins(self, client: int) -> None:
        self.asks(client, hand_made.negotiate(client))
        self.answers(client, hand_made.negotiated())
        self.connects_tree(client)

    def connects_tree(self, client: int) -> None:
        self.asks(client, hand_made.tree_connect())
        self.answers(client, hand_made.tree_connected())

    def asks(self, client: int, message: bytes) -> None:
        self._frame(client, True, message)

    def answers(self, client: int, message: bytes) -> None:
        self._frame(client, False, message)

    def ends(self, client: int) -> None:
        self._lines.append(f"end {self._place()} {client}")

    def misses(self, client: int) -> None:
        self._lines.append(f"gap {self._place()} {client}")

    def asks_to_open(self, client: int, number: int, state: int = ALL) -> None:
        self.asks(client, hand_made.create(number, "f", lease(client, state)))

    def grants(self, client: int, number: int, state: int = ALL) -> None:
        self.answers(client, hand_made.created(number, number, lease(client, state)))

    def reads(self, client: int, number: int) -> None:
        self.asks(client, hand_made.read(number + 50, number))
        self.answers(client, hand_made.read_done(number + 50, b"abc"))

    def opens(self, client: int, number: int, state: int = ALL) -> None:
        """It is granted a lease, and shows that it took it."""
        self.asks_to_open(client, number, state)
        self.grants(client, number, state)
        self.reads(client, number)

    def closes(self, client: int, number: int) -> None:
        self.asks(client, hand_made.close(number + 70, hand_made.file_id(number)))
        self.answers(client, hand_made.closed(number + 70))

    def breaks(self, client: int, left: int) -> None:
        """A break is acknowledged."""
        self.answers(client, hand_made.notification(client, ALL, left))
        self.asks(client, hand_made.acknowledgment(90, client, left))
        self.answers(client, hand_made.acknowledged(90, client, left))

    def _place(self) -> str:
        return f"{len(self._lines) + 1} {len(self._lines) / 100:.2f}"

    def _frame(self, client: int, by_client: bool, message: bytes) -> None:
        had = self._sent.get((client, not by_client), 0)
        self._sent[client, by_client] = self._sent.get((client, by_client), 0) + 1
        server = self.addresses.get(client, "10.0.1.1:445")
        ends = f"10.0.0.{client}:50000 {server} from-{CLIENT if by_client else SERVER}"
        self._lines.append(f"frame {self._place()} {client} {ends} {had} {of_session(message, client).hex()}")


def opened_after_the_end(lines: Lines, twin: bool) -> None:
    lines.asks_to_open(FIRST, 10)
    for step in (lines.grants, lambda client, _: lines.ends(client))[::1 if twin else -1]:
        step(FIRST, 10)
    lines.opens(SECOND, 20)


def _leaves(lines: Lines, command: int, twin: bool) -> None:
    """The client is granted a lease, and leaves its tree or its session: before it has the response, or after that."""
    lines.asks_to_open(FIRST, 10)
    if twin:
        lines.grants(FIRST, 10)
    lines.asks(FIRST, hand_made.message(command, b"\x04\0\0\0", 11))
    if not twin:
        lines.grants(FIRST, 10)
    lines.answers(FIRST, hand_made.message(command, b"\x04\0\0\0", 11, answers=True))


def opened_after_its_tree(lines: Lines, twin: bool) -> None:
    _leaves(lines, TREE_DISCONNECT, twin)
    lines.opens(SECOND, 20)


def opened_after_its_session(lines: Lines, twin: bool) -> None:
    _leaves(lines, LOGOFF, twin)
    lines.opens(SECOND, 20)


def opened_after_its_tree_and_again(lines: Lines, twin: bool) -> None:
    """The lease is granted once more, and its end isn't one for the first open."""
    _leaves(lines, TREE_DISCONNECT, twin)
    lines.connects_tree(FIRST)
    lines.opens(FIRST, 12)
    lines.closes(FIRST, 12)
    lines.opens(SECOND, 20)


def closed_before_it_is_opened(lines: Lines, twin: bool) -> None:
    lines.asks_to_open(FIRST, 10)
    if twin:
        lines.grants(FIRST, 10)
    lines.asks(FIRST, hand_made.close(80, hand_made.file_id(10)))
    if not twin:
        lines.grants(FIRST, 10)
    lines.answers(FIRST, hand_made.closed(80))
    lines.opens(SECOND, 20)


def end_on_its_way(lines: Lines, twin: bool) -> None:
    lines.opens(FIRST, 10)
    if twin:
        lines.ends(FIRST)
    lines.opens(SECOND, 20)
    lines.ends(FIRST)


def break_on_its_way(lines: Lines, twin: bool) -> None:
    """The timer of the break runs out at the server before the second client is granted its lease."""
    lines.opens(FIRST, 10)
    lines.asks_to_open(SECOND, 20, R)
    if twin:
        lines.answers(FIRST, hand_made.notification(FIRST, ALL, R | H))
    lines.grants(SECOND, 20, R)
    if not twin:
        lines.answers(FIRST, hand_made.notification(FIRST, ALL, R | H))


def grant_and_break_wait(lines: Lines, twin: bool) -> None:
    """The first client takes nothing for so long that its grant and the break of it wait at the server until the timer of the
    break has run out and the second client has its lease."""
    lines.asks_to_open(FIRST, 10)
    lines.asks_to_open(SECOND, 20)
    if not twin:
        lines.grants(SECOND, 20)
        lines.reads(SECOND, 20)
    lines.grants(FIRST, 10)
    lines.answers(FIRST, hand_made.notification(FIRST, ALL, R | W))
    if twin:
        lines.grants(SECOND, 20)
        lines.reads(SECOND, 20)
    lines.reads(FIRST, 10)


def grants_and_break_wait(lines: Lines, twin: bool) -> None:
    """It is granted the lease twice, for two opens, and takes nothing for so long."""
    lines.asks_to_open(FIRST, 10)
    lines.asks_to_open(FIRST, 11)
    lines.asks_to_open(SECOND, 20)
    if not twin:
        lines.grants(SECOND, 20)
        lines.reads(SECOND, 20)
    lines.grants(FIRST, 10)
    lines.grants(FIRST, 11)
    lines.answers(FIRST, hand_made.notification(FIRST, ALL, R | W))
    if twin:
        lines.grants(SECOND, 20)
        lines.reads(SECOND, 20)
    lines.reads(FIRST, 10)
    lines.reads(FIRST, 11)


def acknowledged_too_early(lines: Lines, twin: bool) -> None:
    """The client gives all up by an acknowledgment that it sends before the break comes, and which is accepted; then it sends the
    one that the break asks for."""
    lines.opens(FIRST, 10)
    lines.asks_to_open(SECOND, 20)
    if twin:
        lines.answers(FIRST, hand_made.notification(FIRST, ALL, R | H))
    lines.asks(FIRST, hand_made.acknowledgment(12, FIRST, 0))
    if not twin:
        lines.opens(SECOND, 20)
        lines.answers(FIRST, hand_made.notification(FIRST, ALL, R | H))
    lines.asks(FIRST, hand_made.acknowledgment(13, FIRST, R | H))
    lines.answers(FIRST, hand_made.acknowledged(12, FIRST, 0))
    lines.answers(FIRST, hand_made.acknowledged(13, FIRST, R | H, REFUSED))
    if twin:
        lines.opens(SECOND, 20)
    lines.reads(FIRST, 10)


def acknowledged_twice(lines: Lines, twin: bool) -> None:
    """The first acknowledgment is of too much, and is refused."""
    lines.opens(FIRST, 10)
    lines.asks_to_open(SECOND, 20, R)
    lines.answers(FIRST, hand_made.notification(FIRST, ALL, R | H))
    for number, state, status in ((12, ALL, REFUSED), (13, R | H, 0))[int(twin):]:
        lines.asks(FIRST, hand_made.acknowledgment(number, FIRST, state))
        lines.answers(FIRST, hand_made.acknowledged(number, FIRST, state, status))
    lines.grants(SECOND, 20, R)
    lines.reads(SECOND, 20)


def renamed_in_a_gap(lines: Lines, twin: bool) -> None:
    """The third client moves another file to the name, which the capture misses."""
    lines.begins(THIRD)
    lines.opens(FIRST, 10)
    lines.breaks(FIRST, R | W)
    if twin:
        lines.asks(THIRD, hand_made.rename(30, 30, "f"))
        lines.answers(THIRD, hand_made.renamed(30))
    else:
        lines.misses(THIRD)
    lines.opens(SECOND, 20)


def renamed_at_another_address(lines: Lines, twin: bool) -> None:
    """The same, over the server's second address."""
    if not twin:
        lines.addresses[THIRD] = "10.0.1.2:445"
    renamed_in_a_gap(lines, twin=True)


def made_again(lines: Lines, twin: bool) -> None:
    """The file was deleted while the first client had it open (FILE_DISPOSITION_POSIX_SEMANTICS of MS-FSCC). The third client
    makes it again, and then the second one opens that; one response overtakes the other."""
    lines.begins(THIRD)
    lines.opens(FIRST, 10, R | W)
    lines.asks(THIRD, hand_made.create(30, "f"))
    lines.asks_to_open(SECOND, 20, R)
    if not twin:
        lines.grants(SECOND, 20, R)
    lines.answers(THIRD, hand_made.created(30, 30, action=2))
    if twin:
        lines.grants(SECOND, 20, R)
    lines.reads(SECOND, 20)
    lines.reads(FIRST, 10)


def made_again_before_an_answer(lines: Lines, twin: bool) -> None:
    """The second client opens the file before that is deleted; the third client makes it again, with a lease. The response to the
    second one comes after that."""
    lines.begins(THIRD)
    lines.asks_to_open(SECOND, 20, R)
    if twin:
        lines.grants(SECOND, 20, R)
        lines.reads(SECOND, 20)
    lines.asks_to_open(THIRD, 30)
    lines.answers(THIRD, hand_made.created(30, 30, lease(THIRD, ALL), action=2))
    lines.reads(THIRD, 30)
    if not twin:
        lines.grants(SECOND, 20, R)
        lines.reads(SECOND, 20)
    lines.reads(THIRD, 30)


def lost_while_it_asks(lines: Lines, twin: bool) -> None:
    """The server has given its connection up, and the client doesn't know."""
    lines.opens(FIRST, 10)
    if twin:
        lines.ends(FIRST)
    lines.opens(SECOND, 20)
    if not twin:
        lines.asks(FIRST, hand_made.read(61, 10))
    lines.reads(SECOND, 20)


def lost_without_a_word(lines: Lines, twin: bool) -> None:
    lines.opens(FIRST, 10)
    if twin:
        lines.ends(FIRST)
    lines.opens(SECOND, 20)


def _connects_anew(lines: Lines, previous: int) -> None:
    """The first client has a new connection, with the third number, and a session that names the one before it."""
    lines.asks(THIRD, hand_made.negotiate(FIRST))
    lines.answers(THIRD, hand_made.negotiated())
    setup = hand_made.session_setup(THIRD)
    lines.asks(THIRD, setup[:80] + previous.to_bytes(8, "little") + setup[88:])
    lines.answers(THIRD, hand_made.session_set_up(THIRD))
    lines.connects_tree(THIRD)


def session_ended_at_another_address(lines: Lines, twin: bool) -> None:
    """Its connection is lost, and it connects over the server's second address (PreviousSessionId)."""
    if not twin:
        lines.addresses[THIRD] = "10.0.1.2:445"
    lines.opens(FIRST, 10)
    _connects_anew(lines, previous=FIRST)
    lines.opens(SECOND, 20)


def connected_again(lines: Lines, twin: bool) -> None:
    """Its connection is lost, of which no packet says so. It connects its durable open again, and closes it."""
    lines.opens(FIRST, 10)
    _connects_anew(lines, previous=FIRST if twin else 0)
    again = CreateAsk(uuid.UUID(bytes=bytes([FIRST] * 16)), reconnect=10).write()
    lines.asks(THIRD, hand_made.create(11, "f", again))
    lines.answers(THIRD, hand_made.created(11, 10, lease(FIRST, ALL)))
    lines.closes(THIRD, 10)
    lines.opens(SECOND, 20)


class Charged(NamedTuple):
    """A run, and why it was charged."""

    run: Callable[[Lines, bool], None]
    why: str

    def text(self, twin: bool = False) -> str:
        lines = Lines()
        self.run(lines, twin)
        return lines.text()


AFTER = "an open was ended only by what the capture has after the response that makes it"
ON_ITS_WAY = "at the client, what the server sent to one client may come after what it granted to another one since"
CHARGED = (
    Charged(opened_after_the_end, f"{AFTER}: the end of its connection came before"),
    Charged(opened_after_its_tree, f"{AFTER}: TREE_DISCONNECT didn't wait for it"),
    Charged(opened_after_its_session, f"{AFTER}: LOGOFF didn't wait for it"),
    Charged(opened_after_its_tree_and_again, f"{AFTER}: and the open that stayed kept its lease"),
    Charged(closed_before_it_is_opened, f"{AFTER}: the client guessed the FileId"),
    Charged(end_on_its_way, f"{ON_ITS_WAY}: the end of its connection"),
    Charged(break_on_its_way, f"{ON_ITS_WAY}: a break whose timer ran out"),
    Charged(grant_and_break_wait, "a grant and its break left the server after the timer of the break ran out"),
    Charged(grants_and_break_wait, "so did an earlier grant of the lease"),
    Charged(acknowledged_twice, "the first acknowledgment counted, though it was refused"),
    Charged(acknowledged_too_early, "an acknowledgment was taken for accepted, though another one was"),
    Charged(renamed_in_a_gap, "a gap wasn't held to hide a request that changes names"),
    Charged(renamed_at_another_address, "a change of names counted only at the address where it is seen"),
    Charged(made_again, "the response to a later CREATE came before the one that makes the file"),
    Charged(made_again_before_an_answer, "the response to an earlier CREATE came after the one that makes the file"),
    Charged(session_ended_at_another_address, "a session ended only at the address where it is"),
    Charged(connected_again, "an open that is connected again stayed in its old session too"),
    Charged(lost_without_a_word, "the first client's connection was given up without a packet"),
    Charged(lost_while_it_asks, "it was, and the client went on asking"),
)
