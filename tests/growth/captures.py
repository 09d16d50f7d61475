"""Families of captures for `leasecheck capture`: lines of messages that clients and a server exchange in good order."""
from __future__ import annotations

from tests.drive import hand_made
from tests.drive.hand_made import H, R, W, file_id, lease, of_session
from tests.growth.family import Family

# what a client has open at a time, where it opens much
KEPT = 8
FILES = 32
KEYS = 200
# where a NEGOTIATE request has its ClientGuid
GUID = 64 + 12
FIRST = 4_000


class Lines:
    """The lines of a capture. Each frame acknowledges all of the other side's on its connection."""

    def __init__(self) -> None:
        self.lines: list[str] = []
        self._sent: dict[tuple[int, bool], int] = {}
        self._identifiers: dict[int, int] = {}

    def frame(self, client: int, is_request: bool, message: bytes) -> None:
        number = len(self.lines) + 1
        side, other = (client, is_request), (client, not is_request)
        self._sent[side] = self._sent.get(side, 0) + 1
        self.lines.append(
            f"frame {number} {number}.0 {client} 10.0.{client >> 8}.{client & 255}:50000 10.9.0.1:445 "
            f"{'from-client' if is_request else 'from-server'} {self._sent.get(other, 0)} {of_session(message, client).hex()}")

    def asks(self, client: int, request: bytes, answer: bytes) -> None:
        self.frame(client, True, request)
        self.frame(client, False, answer)

    def next_identifier(self, client: int) -> int:
        self._identifiers[client] = self._identifiers.get(client, 9) + 1
        return self._identifiers[client]

    def joins(self, client: int) -> None:
        request = bytearray(hand_made.negotiate(0))
        request[GUID:GUID + 4] = client.to_bytes(4, "big")
        self.asks(client, bytes(request), hand_made.negotiated())
        self.asks(client, hand_made.tree_connect(), hand_made.tree_connected())

    def opens(self, client: int, number: int, name: str, key: int, state: int = R | H | W) -> None:
        """An open with a lease, which is used once."""
        identifier, made_at = self.next_identifier(client), 1 + int.from_bytes(name.encode(), "big") % 1_000_003
        self.asks(client, hand_made.create(identifier, name, lease(key, state)),
                  hand_made.created(identifier, number, lease(key, state), made_at=made_at))
        identifier = self.next_identifier(client)
        self.asks(client, hand_made.query(identifier, file_id(number)), hand_made.queried(identifier))

    def closes(self, client: int, number: int) -> None:
        identifier = self.next_identifier(client)
        self.asks(client, hand_made.close(identifier, file_id(number)), hand_made.closed(identifier))

    def gives_up(self, client: int, key: int, held: int, left: int) -> None:
        """The lease is broken, and that is acknowledged."""
        self.frame(client, False, hand_made.notification(key, held, left))
        identifier = self.next_identifier(client)
        self.asks(client, hand_made.acknowledgment(identifier, key, left), hand_made.acknowledged(identifier, key, left))

    def text(self) -> str:
        return "".join(f"{line}\n" for line in self.lines)


def begun() -> Lines:
    """One client opens a file, and closes it, so that something is judged in each capture."""
    made = Lines()
    made.joins(FIRST)
    made.opens(FIRST, FIRST, "first", 1)
    made.closes(FIRST, FIRST)
    return made


def used_again(count: int) -> str:
    """n opens of 32 files by 4 clients, each on files of its own, with 8 opens of each client at a time."""
    made = begun()
    for client in range(1, 5):
        made.joins(client)
    for number in range(1, count + 1):
        client, turn = 1 + number % 4, number // 4
        name = f"f{client}-{turn % (FILES // 4)}"
        made.opens(client, number, name, 1 + (number * 7) % KEYS)
        if turn >= KEPT:
            made.closes(client, number - 4 * KEPT)
    return made.text()


def many_files(count: int) -> str:
    """n files, which one client opens, uses and closes one after the other."""
    made = begun()
    made.joins(1)
    for number in range(1, count + 1):
        made.opens(1, number, f"file{number}", 1 + number % KEYS)
        made.closes(1, number)
    return made.text()


def many_clients(count: int) -> str:
    """n clients, each of which opens, uses and closes a file of its own."""
    made = begun()
    for client in range(1, count + 1):
        made.joins(client)
        made.opens(client, client, f"file{client}", 1 + client % KEYS)
        made.closes(client, client)
    return made.text()


def taken_in_turns(count: int) -> str:
    """Two clients open one file in turns, n times: the lease of one is broken, and it gives up what it cached, and closes the
    file, before the other is granted its lease."""
    made = begun()
    made.joins(1)
    made.joins(2)
    for number in range(1, count + 1):
        client, other = 1 + number % 2, 2 - number % 2
        if number > 1:
            made.gives_up(other, 1 + (number - 1) % KEYS, R | H | W, R)
            made.closes(other, number - 1)
        made.opens(client, number, "file", 1 + number % KEYS)
    return made.text()


def renamed_again(count: int) -> str:
    """One client opens n files, renames each and closes it."""
    made = begun()
    made.joins(1)
    for number in range(1, count + 1):
        made.opens(1, number, f"file{number}", 1 + number % KEYS)
        identifier = made.next_identifier(1)
        made.asks(1, hand_made.rename(identifier, number, f"other{number}"), hand_made.renamed(identifier))
        made.closes(1, number)
    return made.text()


CAPTURES = [
    Family("capture-used-again", "capture", used_again, 1_024, "open", most_exponent=1.1),
    Family("capture-many-files", "capture", many_files, 1_024, "file", most_exponent=1.1),
    Family("capture-many-clients", "capture", many_clients, 512, "client", most_exponent=1.1),
    Family("capture-taken-in-turns", "capture", taken_in_turns, 1_024, "open", most_exponent=1.1),
    Family("capture-renamed", "capture", renamed_again, 1_024, "file", most_exponent=1.1),
]
