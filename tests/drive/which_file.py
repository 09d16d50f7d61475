"""Captures that are made by hand, in which it isn't the name alone that tells which file an answer is of, or whose open it is."""
from __future__ import annotations

from collections.abc import Callable
from functools import partial
from typing import NamedTuple

from tests.drive import hand_made
from tests.drive.hand_made import H, Line, Made, R, W, application, chain, create, created, lease, on_disk

RWH, RH = R | W | H, R | H


class Expected(NamedTuple):
    """Whether the capture is unsafe with `--at client` and with `--at server`, and whether it is so at the server by what that
    granted."""

    at_client: bool
    at_server: bool
    is_granted: bool = False


class Opening(NamedTuple):
    """A file that is opened with a lease, by a name; what the response says of it, and the application that asks."""

    number: int
    key: int
    state: int
    name: str = "f"
    disk: bytes = b""
    made_at: int = 0
    application: bytes = b""


def opens(line: Line, identifier: int, one: Opening) -> None:
    """The client reads it, so that the grant is known to be taken."""
    wanted = lease(one.key, one.state)
    line.asks(create(identifier, one.name, chain(wanted, one.application) if one.application else wanted))
    given = chain(wanted, one.disk) if one.disk else wanted
    line.answers(created(identifier, one.number, given, made_at=one.made_at))
    reads(line, identifier + 1, one.number)


def reads(line: Line, identifier: int, number: int) -> None:
    """The server answers, so that the open is there still."""
    line.asks(hand_made.read(identifier, number))
    line.answers(hand_made.read_done(identifier, b"abc"))


def two_clients(made: Made) -> tuple[Line, Line]:
    line, other = Line(made, 50001), Line(made, 50002)
    line.begins(1)
    other.begins(2)
    return line, other


def renamed(made: Made, disk: bytes, is_first: bool) -> Expected:
    """A client renames what it has open, and opens it by the new name under the same key. Another one is granted reads of it
    beside its write cache, after that or before it: then only the file's number on the disk tells which file it is."""
    line, other = two_clients(made)
    opens(line, 3, Opening(11, 0xA1, RWH, disk=disk))
    line.asks(hand_made.rename(5, 11, "g"))
    line.answers(hand_made.renamed(5))
    if is_first:
        opens(other, 3, Opening(22, 0xB2, RH, "g", disk))
    opens(line, 6, Opening(12, 0xA1, RWH, "g", disk))
    if not is_first:
        opens(other, 3, Opening(22, 0xB2, RH, "g", disk))
    reads(line, 8, 11)
    is_known = bool(disk) or not is_first
    return Expected(is_known, is_known)


def another_name(made: Made, number: int, volume: int, made_at: int) -> Expected:
    """Another client opens a file by its name in another case. Which file that is tells its number on the disk."""
    line, other = two_clients(made)
    opens(line, 3, Opening(11, 0xA1, RWH, "f", on_disk(7), 1000))
    opens(other, 3, Opening(22, 0xB2, RH, "F", on_disk(number, volume), made_at))
    reads(line, 5, 11)
    is_one = (number, volume, made_at) == (7, 1, 1000)
    return Expected(is_one, is_one)


def number_given_again(made: Made) -> Expected:
    """A server gives the number on the disk again, once the file that had it is gone: the other file was made at another time."""
    line, other = two_clients(made)
    opens(line, 3, Opening(11, 0xA1, RWH, "f", on_disk(7), 1000))
    opens(other, 3, Opening(22, 0xB2, RH, "f", on_disk(7), 2000))
    reads(line, 5, 11)
    return Expected(False, False)


def time_set_anew(made: Made, key: int) -> Expected:
    """A client opens a file again, whose CreationTime was set anew meanwhile: while it holds a lease under the key, the server
    takes that for no other file. Another client is granted reads of it beside the write cache."""
    line, other = two_clients(made)
    opens(line, 3, Opening(11, 0xA1, RWH, made_at=1000))
    opens(line, 5, Opening(12, key, RWH if key == 0xA1 else RH, made_at=2000))
    opens(other, 3, Opening(22, 0xB2, RH, made_at=2000))
    reads(line, 7, 11)
    is_one = key == 0xA1
    return Expected(is_one, is_one)


def taken_over(made: Made, number: int, name: str, guid: int) -> Expected:
    """An application opens a file by another client: the server closes what it had open by the first one, which goes on to send
    requests about other things. That is so of the same application, the same file, and another client alone."""
    line, other = Line(made, 50001), Line(made, 50002)
    line.begins(1)
    other.begins(guid)
    opens(line, 3, Opening(11, 0xA1, RWH, application=application(5)))
    opens(other, 3, Opening(22, 0xB2, RWH, name, application=application(number)))
    if name != "f":
        opens(other, 5, Opening(23, 0xB3, RWH))
    line.asks(hand_made.echo(9))
    line.answers(hand_made.echoed(9))
    is_unsafe = guid != 1 and (number != 5 or name != "f")
    return Expected(is_unsafe, is_unsafe)


WHICH_FILE: dict[str, Callable[[Made], Expected]] = {
    **{f"renamed, and opened {'by another client first' if is_first else 'again'}, {'by its number' if disk else 'by its key'}":
       partial(renamed, disk=disk, is_first=is_first) for disk in (on_disk(7), b"") for is_first in (False, True)},
    **{f"another name, number {number} of volume {volume}, made at {made_at}":
       partial(another_name, number=number, volume=volume, made_at=made_at)
       for number, volume, made_at in ((7, 1, 1000), (8, 1, 1000), (7, 2, 1000), (7, 1, 2000))},
    "a number that is given again": number_given_again,
    **{f"CreationTime set anew, under {'the same' if key == 0xA1 else 'another'} key": partial(time_set_anew, key=key)
       for key in (0xA1, 0xA2)},
    **{f"application {number} of client {guid} opens {name}": partial(taken_over, number=number, name=name, guid=guid)
       for number, name, guid in ((5, "f", 2), (6, "f", 2), (5, "g", 2), (5, "f", 1))},
}
