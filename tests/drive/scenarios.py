"""Captures that are made by hand: what happens on the connections, with the verdict that the rules give."""
from __future__ import annotations

from collections.abc import Callable
from functools import partial

from tests.drive import hand_made
from tests.drive.hand_made import H, Line, Made, R, W
from tests.drive.which_file import WHICH_FILE, Expected


NOT_UNSAFE = Expected(False, False)
FILE_CLOSED, ACCESS_DENIED = 0xC0000128, 0xC0000022
GONE = {"FILE_CLOSED": FILE_CLOSED, "NETWORK_NAME_DELETED": 0xC00000C9, "USER_SESSION_DELETED": 0xC0000203}


def reads_still(line: Line) -> None:
    """The client reads what it opened first: the server answers, so that the open is there still."""
    line.asks(hand_made.read(5, 11))
    line.answers(hand_made.read_done(5, b"abc"))


def two_caches(made: Made) -> Expected:
    """A second client is granted reads beside a write cache, without a break."""
    line, other = Line(made, 50001), Line(made, 50002)
    line.begins(1)
    line.opens(3, 11, 0xA1, R | W | H)
    other.begins(2)
    other.opens(3, 22, 0xB2, R | H)
    reads_still(line)
    return Expected(True, True)


def two_caches_by(made: Made, path: str, is_one: bool) -> Expected:
    """The same where the second client connects to a share by another path, which leads to the same one or not."""
    line, other = Line(made, 50001), Line(made, 50002)
    line.begins(1)
    line.opens(3, 11, 0xA1, R | W | H)
    other.begins(2, path=path)
    other.opens(3, 22, 0xB2, R | H)
    reads_still(line)
    return Expected(is_one, is_one)


def shares_after_a_break(line: Line, other: Line, name: str, number: int, acknowledgment: int, state: int = R | H) -> None:
    """Opens the file for `other`, whose grant comes once `line` has given up its write cache by the request of that MessageId.
    Then `line` reads what it has open with this number. So `other` may be granted no more than RH."""
    other.asks(hand_made.create(3, name, hand_made.lease(0xB2, R | W | H)))
    line.answers(hand_made.notification(0xA1, R | W | H, R | H))
    other.answers(hand_made.pending(3, 5))
    line.asks(hand_made.acknowledgment(acknowledgment, 0xA1, R | H))
    line.answers(hand_made.acknowledged(acknowledgment, 0xA1, R | H))
    other.answers(hand_made.created(3, 22, hand_made.lease(0xB2, state)))
    other.asks(hand_made.read(4, 22))
    other.answers(hand_made.read_done(4, b"abc"))
    line.asks(hand_made.read(acknowledgment + 1, number))
    line.answers(hand_made.read_done(acknowledgment + 1, b"abc"))


def break_acknowledged(made: Made) -> Expected:
    line, other = Line(made, 50001), Line(made, 50002)
    line.begins(1)
    line.opens(3, 11, 0xA1, R | W | H)
    other.begins(2)
    shares_after_a_break(line, other, "f", number=11, acknowledgment=5)
    return NOT_UNSAFE


def break_not_acknowledged(made: Made) -> Expected:
    """A grant before the acknowledgment: the first client may have given up its cache by then, so nobody is blamed."""
    line, other = Line(made, 50001), Line(made, 50002)
    line.begins(1)
    line.opens(3, 11, 0xA1, R | W | H)
    other.begins(2)
    line.answers(hand_made.notification(0xA1, R | W | H, R | H))
    other.opens(3, 22, 0xB2, R | H)
    return NOT_UNSAFE


def closes_that_cross(made: Made, had_grant: bool) -> Expected:
    """The close reaches the server after the other's grant. Its sender's host may have had nothing since its own: then what the
    server granted goes together with nothing, though its clients may have cached one after the other."""
    line, other = Line(made, 50001), Line(made, 50002)
    line.begins(1)
    line.opens(3, 11, 0xA1, R | W | H)
    had = line.sent[False]
    other.begins(2)
    other.opens(3, 22, 0xB2, R | W | H)
    other.asks(hand_made.read(5, 22))
    line.answers(hand_made.message(13, bytes(4), 9, answers=True))
    line.asks(hand_made.close(6, hand_made.file_id(11)), had=None if had_grant else had)
    line.answers(hand_made.closed(6))
    return Expected(True, True, is_granted=not had_grant)


def three_in_a_row(made: Made, closes: bool) -> Expected:
    """RWH is granted to three clients without a break. What they close shows that the server held it still; where nothing
    follows, each client may have been gone by the next grant, and nobody is charged."""
    lines = [Line(made, 50001 + number) for number in range(3)]
    for number, line in enumerate(lines, 1):
        line.begins(number)
        line.opens(3, number, 0xA0 + number, R | W | H)
    for number, line in enumerate(lines if closes else [], 1):
        line.asks(hand_made.close(6, hand_made.file_id(number)))
        line.answers(hand_made.closed(6))
    return Expected(closes, closes, is_granted=closes)


def close_in_a_compound(made: Made) -> Expected:
    line, other = Line(made, 50001), Line(made, 50002)
    line.begins(1)
    create = hand_made.create(3, "f", hand_made.lease(0xA1, R | W | H))
    line.asks(hand_made.compound([create, hand_made.close(4, hand_made.PREVIOUS, related=True)]))
    line.answers(hand_made.compound([hand_made.created(3, 11, hand_made.lease(0xA1, R | W | H)), hand_made.closed(4)]))
    other.begins(2)
    other.opens(3, 22, 0xB2, R | W | H)
    return NOT_UNSAFE


def two_connections(made: Made) -> Expected:
    """A client has two connections, and loses the one without the open: it caches still."""
    line, again, other = Line(made, 50001), Line(made, 50002), Line(made, 50003)
    line.begins(1)
    again.begins(1)
    line.opens(3, 11, 0xA1, R | W | H)
    again.ends()
    other.begins(2)
    other.opens(3, 22, 0xB2, R | W | H)
    reads_still(line)
    return Expected(True, True)


def one_client_of_two(made: Made) -> Expected:
    """Two connections of one ClientGuid are one client."""
    line, again = Line(made, 50001), Line(made, 50002)
    line.begins(1)
    again.begins(1)
    line.opens(3, 11, 0xA1, R | W | H)
    again.opens(3, 12, 0xA1, R | W | H)
    return NOT_UNSAFE


def two_keys_of_one_client(made: Made) -> Expected:
    """A client's leases under two keys don't clash with one another: no two clients cache the file."""
    line = Line(made, 50001)
    line.begins(1)
    line.opens(3, 11, 0xA1, R | W | H)
    line.opens(6, 12, 0xA2, R | W | H)
    reads_still(line)
    return NOT_UNSAFE


def of_two_clients(made: Made, kind: str) -> Expected:
    """What is unsafe where both connections are whole, and isn't said where something of them is missing or another's."""
    line, other = Line(made, 50001, begins=kind != "before"), Line(made, 50002)
    if kind != "before":
        line.begins(1, 0x300 if kind == "dialect" else 0x210)
    line.opens(3, 11, 0xA1, R | W | H)
    if kind == "gap":
        line.misses(100)
        line.asks(hand_made.read(5, 11))
    elif kind == "cut":
        line.cut(80, hand_made.close(5, hand_made.file_id(11)))
    elif kind == "encrypted":
        line.asks(b"\xfdSMB" + bytes(80))
    elif kind == "rename":
        line.asks(hand_made.rename(5, 11, "g"))
        line.answers(hand_made.renamed(5))
    other.begins(2)
    other.asks(hand_made.create(3, "f", hand_made.lease(0xB2, R | W | H)))
    other.answers(hand_made.created(3, 22, hand_made.lease(0xB2, R | W | H), action=2 if kind == "made again" else 1))
    other.asks(hand_made.read(4, 22))
    other.answers(hand_made.read_done(4, b"abc"))
    if kind in ("whole", "before", "dialect", "made again"):
        reads_still(line)
    is_unsafe = kind in ("whole", "dialect")
    return Expected(is_unsafe, is_unsafe)


def of_dialect_311(made: Made) -> Expected:
    """Two caches under leases of version 2."""
    line, other = Line(made, 50001), Line(made, 50002)
    line.begins(1, 0x311)
    line.opens(3, 11, 0xA1, R | W | H, epoch=1)
    other.begins(2, 0x311)
    other.opens(3, 22, 0xB2, R | H, epoch=1)
    reads_still(line)
    return Expected(True, True)


def broken_elsewhere(made: Made, epochs: bool) -> Expected:
    """A break over another connection than that of the grant, after which the client keeps RH; then another one is granted RWH.
    Packets of two connections have no order, so that the break may be the earlier one: only epochs show that it isn't."""
    line, again, other = Line(made, 50001), Line(made, 50002), Line(made, 50003)
    for one, guid in ((line, 1), (again, 1), (other, 2)):
        one.begins(guid, 0x311)
    line.opens(3, 11, 0xA1, R | W | H, epoch=1 if epochs else None)
    again.answers(hand_made.notification(0xA1, R | W | H, R | H, epoch=2 if epochs else 0))
    again.asks(hand_made.acknowledgment(3, 0xA1, R | H))
    again.answers(hand_made.acknowledged(3, 0xA1, R | H))
    other.opens(3, 22, 0xB2, R | W | H, epoch=1 if epochs else None)
    reads_still(line)
    return Expected(epochs, epochs)


def odd_breaks(made: Made) -> Expected:
    """A grant of more than was asked for, a break to what isn't a part of the lease, an acknowledgment that is refused, and a
    break that isn't acknowledged: none of that lets two clients cache what doesn't go together."""
    line = Line(made, 50001)
    line.begins(1)
    line.opens(3, 11, 0xA1, R | W | H, asked=R)
    line.answers(hand_made.notification(0xA1, R | H, R | W))
    line.asks(hand_made.acknowledgment(5, 0xA1, 0))
    line.answers(hand_made.acknowledged(5, 0xA1, 0, hand_made.REFUSED))
    line.answers(hand_made.notification(0xA1, R | W, R))
    return NOT_UNSAFE


def two_servers(made: Made) -> Expected:
    """A server is a ServerGuid at an address: files of one name on two of these are two files."""
    line, other = Line(made, 50001), Line(made, 50002, host=2)
    line.begins(1)
    line.opens(3, 11, 0xA1, R | W | H)
    other.begins(2)
    other.opens(3, 22, 0xB2, R | W | H)
    reads_still(line)
    return NOT_UNSAFE


def server_at_two_addresses(made: Made) -> Expected:
    """A lease that is seen at two addresses shows that they are one server's; but its files at each are taken for others."""
    line, again, other = Line(made, 50001), Line(made, 50002, host=2), Line(made, 50003, host=2)
    line.begins(1)
    line.opens(3, 11, 0xA1, R | W | H)
    again.begins(1)
    again.opens(3, 12, 0xA1, R | W | H)
    other.begins(2)
    other.opens(3, 22, 0xB2, R | W | H)
    reads_still(line)
    return NOT_UNSAFE


def acknowledged_elsewhere(made: Made) -> Expected:
    """An acknowledgment over another connection of the client shows that the break was taken where it came, and nothing of what
    that other connection brought: at a server its grant isn't known to be taken, though the server held both."""
    line, again, other = Line(made, 50001), Line(made, 50002), Line(made, 50003)
    line.begins(1)
    line.opens(3, 11, 0xA1, R | W | H)
    again.begins(1)
    other.begins(2)
    for number in range(5):
        line.answers(hand_made.message(13, bytes(4), 100 + number, answers=True))
    line.answers(hand_made.notification(0xA1, R | W | H, R | H))
    again.asks(hand_made.create(5, "g", hand_made.lease(0xA2, R | W | H)))
    again.answers(hand_made.created(5, 31, hand_made.lease(0xA2, R | W | H)))
    again.asks(hand_made.acknowledgment(6, 0xA1, R | H))
    other.opens(3, 22, 0xB2, R | W | H, name="g")
    other.asks(hand_made.close(5, hand_made.file_id(22)))
    other.answers(hand_made.closed(5))
    again.asks(hand_made.read(7, 31))
    again.answers(hand_made.read_done(7, b"abc"))
    return Expected(True, True, is_granted=True)


def key_used_again(made: Made, kind: str, state: int = R | H) -> Expected:
    """A lease under a key that another file had before, or its name had before it was made anew: the break is of the later."""
    line, other = Line(made, 50001), Line(made, 50002)
    line.begins(1)
    line.opens(3, 11, 0xA1, R | W | H, name="f")
    line.asks(hand_made.close(5, hand_made.file_id(11)))
    line.answers(hand_made.closed(5))
    name, action = ("g", 1) if kind == "another file" else ("f", 2)
    line.asks(hand_made.create(6, name, hand_made.lease(0xA1, R | W | H)))
    line.answers(hand_made.created(6, 12, hand_made.lease(0xA1, R | W | H), action))
    line.asks(hand_made.read(7, 12))
    line.answers(hand_made.read_done(7, b"abc"))
    other.begins(2)
    shares_after_a_break(line, other, name, number=12, acknowledgment=8, state=state)
    return Expected(bool(state & W), bool(state & W))


def break_after_the_last_close(made: Made) -> Expected:
    """A break that crosses the CLOSE of the last open gives nobody a lease; one after the answer to that CLOSE is of no lease."""
    line, other = Line(made, 50001), Line(made, 50002)
    line.begins(1)
    line.opens(3, 11, 0xA1, R | W | H)
    line.asks(hand_made.close(5, hand_made.file_id(11)))
    line.answers(hand_made.notification(0xA1, R | W | H, R | H))
    line.answers(hand_made.closed(5))
    line.answers(hand_made.notification(0xA1, R | H, 0))
    line.asks(hand_made.create(6, "g"))
    line.answers(hand_made.created(6, 12))
    line.asks(hand_made.read(7, 12))
    other.begins(2)
    other.opens(3, 22, 0xB2, R | W | H)
    return NOT_UNSAFE


def opens_made_at(line: Line, number: int, grant: bytes, time: int) -> None:
    """Opens a file that was made at a time, with a lease, and reads it."""
    line.asks(hand_made.create(3, "f", grant))
    line.answers(hand_made.created(3, number, grant, made_at=time))
    line.asks(hand_made.read(4, number))
    line.answers(hand_made.read_done(4, b"abc"))


def of_two_times(made: Made, times: tuple[int, int]) -> Expected:
    """A share may be a folder of its own for each user: CreationTime tells the files of one name apart."""
    line, other = Line(made, 50001), Line(made, 50002)
    line.begins(1)
    opens_made_at(line, 11, hand_made.lease(0xA1, R | W | H), times[0])
    other.begins(2)
    opens_made_at(other, 22, hand_made.lease(0xB2, R | H), times[1])
    reads_still(line)
    is_unsafe = times[0] == times[1]
    return Expected(is_unsafe, is_unsafe)


def ended_by_the_server(made: Made, status: int) -> Expected:
    """The server ends an open by itself and grants its lease to another client; a later answer shows that the open is gone. Until
    then an ECHO shows that the connection is there, and not that the open is. Where the answer says nothing of that, it does."""
    line, other = Line(made, 50001), Line(made, 50002)
    line.begins(1)
    line.opens(3, 11, 0xA1, R | W | H)
    other.begins(2)
    other.opens(3, 22, 0xB2, R | H)
    line.asks(hand_made.echo(5))
    line.answers(hand_made.echoed(5))
    line.asks(hand_made.read(6, 11))
    line.answers(hand_made.refused(8, 6, status))
    is_there = status == ACCESS_DENIED
    return Expected(is_there, is_there)


def used_before_the_server_ended_it(made: Made) -> Expected:
    """What the server did by an open beside another client's lease shows that both had theirs, whatever became of the open."""
    line, other = Line(made, 50001), Line(made, 50002)
    line.begins(1)
    line.opens(3, 11, 0xA1, R | W | H)
    other.begins(2)
    other.opens(3, 22, 0xB2, R | H)
    reads_still(line)
    line.asks(hand_made.read(6, 11))
    line.answers(hand_made.refused(8, 6, FILE_CLOSED))
    return Expected(True, True)


SCENARIOS: dict[str, Callable[[Made], Expected]] = {
    "two caches": two_caches,
    **{f"two caches by the path {path}": partial(two_caches_by, path=path, is_one=is_one)
       for path, is_one in ((r"\\LOCALHOST\share", True), (r"\\server.example\share", True), (r"\\127.0.0.1\shared", False),
                            (r"\\127.0.0.1\hare", False))},
    "a break that is acknowledged": break_acknowledged,
    "a break that isn't acknowledged": break_not_acknowledged,
    **{f"three grants in a row, {'closed' if closes else 'and nothing after'}": partial(three_in_a_row, closes=closes)
       for closes in (True, False)},
    "a close that crosses a grant": partial(closes_that_cross, had_grant=False),
    "a close that doesn't cross": partial(closes_that_cross, had_grant=True), "a close in a compound": close_in_a_compound,
    "one client with two keys": two_keys_of_one_client, "a client with two connections": two_connections,
    "two connections, one client": one_client_of_two,
    **{f"a key that {kind} had before": partial(key_used_again, kind=kind) for kind in ("another file", "the name")},
    "a key that another file had before, and two caches": partial(key_used_again, kind="another file", state=R | W | H),
    "a break that is acknowledged elsewhere": acknowledged_elsewhere, "two servers": two_servers,
    "a server at two addresses": server_at_two_addresses, "two clients, dialect 3.1.1": of_dialect_311,
    **{f"a break over another connection, with{'' if epochs else 'out'} epochs": partial(broken_elsewhere, epochs=epochs)
       for epochs in (True, False)},
    **{f"files made at {'one time' if one == other else 'two times'}": partial(of_two_times, times=(one, other))
       for one, other in ((1000, 1000), (1000, 2000))},
    **{f"an open that the server ended, {name}": partial(ended_by_the_server, status=status) for name, status in GONE.items()},
    "an open that is there still, ACCESS_DENIED": partial(ended_by_the_server, status=ACCESS_DENIED),
    "an open that the server ended after it was used": used_before_the_server_ended_it,
    "a break after the last close": break_after_the_last_close, "odd breaks": odd_breaks,
    **{f"two clients, {kind}": partial(of_two_clients, kind=kind)
       for kind in ("whole", "before", "dialect", "gap", "cut", "encrypted", "rename", "made again")},
    **WHICH_FILE,
}
