"""Lines by which somebody has things happen now, or go wrong with the next message of a kind (docs/CLIENT_TESTS.md)."""
from __future__ import annotations

from collections.abc import Callable
from enum import Enum
from typing import TYPE_CHECKING, Union
from uuid import UUID

from smblease import LeaseState, Status
from smblease.drive.headers import Command
from smblease.serve.faults_on_demand import NOTIFICATION, Action, Fault
from smblease.serve.lowering import STATES, Lowering
from smblease.serve.opens import ManagerClient

if TYPE_CHECKING:
    from smblease.serve.server import Server

LONGEST_DELAY = 3600.0
OPLOCK = "oplock"


class Outcome(Enum):
    DONE = "done"
    # there was nothing to do it to
    NOTHING = "nothing"
    # it can't be read, or can't be done as it is asked for
    REFUSED = "refused"


Deed = Callable[[], Outcome]


def _done(is_done: bool) -> Outcome:
    return Outcome.DONE if is_done else Outcome.NOTHING


def named_client(word: str) -> Union[int, bytes]:
    """Its number in the record, or its ClientGuid."""
    return int(word) if word.isdigit() and len(word) < 20 else UUID(word).bytes


def status_of(word: str) -> int:
    """A name of MS-ERREF, or 0x and digits. What isn't an error is none."""
    found = int(word, 16) if word.startswith("0x") else int(Status[word.removeprefix("STATUS_")])
    if not 0xC0000000 <= found < 1 << 32:
        raise ValueError
    return found


def kind_of(word: str, is_of_requests: bool = False) -> str:
    """A command that is answered, or a break."""
    if word == Command.CANCEL.name:
        raise ValueError
    return word if word == NOTIFICATION and not is_of_requests else Command[word].name


class ControlLines:
    """A line is read first, and done after that: what can't be read raises ValueError, KeyError or IndexError."""

    def __init__(self, server: Server) -> None:
        self._server = server
        self._lowering = Lowering(server)
        self._readers: dict[str, Callable[[list[str]], Deed]] = {
            "expire": self._expire, "scavenge": self._scavenge, "break": self._break, "logoff": self._log_off,
            "disconnect": self._disconnect, "refuse": self._refuse, "drop": self._drop, "reorder": self._reorder,
            "delay": self._delay}

    def read(self, line: str) -> Deed:
        word, *words = line.split(" ")
        return self._readers[word](words)

    def answer(self, line: str) -> str:
        try:
            return self.read(line)().value
        except (ValueError, KeyError, IndexError):
            return Outcome.REFUSED.value

    def client(self, named: Union[int, bytes]) -> ManagerClient | None:
        clients = self._server.clients
        return clients.numbered(named) if isinstance(named, int) else clients.of_guid(named)

    # What happens now

    def _expire(self, words: list[str]) -> Deed:
        named, key = self._lease(words)

        def deed() -> Outcome:
            client = self.client(named)
            return _done(client is not None and self._server.leases.expire(client, key or client.own_key))
        return deed

    def _scavenge(self, words: list[str]) -> Deed:
        file_id, = map(int, words)
        return lambda: _done(self._server.scavenge(file_id))

    def _break(self, words: list[str]) -> Deed:
        named, key = self._lease(words[:2])
        state, = (STATES[it] for it in words[2:])
        return lambda: self._broken(named, key, state)

    @staticmethod
    def _lease(words: list[str]) -> tuple[Union[int, bytes], UUID | None]:
        """Of an oplock the key is its own."""
        client, key = words
        return named_client(client), None if key == OPLOCK else UUID(bytes=bytes.fromhex(key))

    def _broken(self, named: Union[int, bytes], key: UUID | None, state: LeaseState) -> Outcome:
        client = self.client(named)
        lease = client.leases.get(key or client.own_key) if client else None
        if client is None or lease is None:
            return Outcome.NOTHING
        if not self._lowering.can_lower(lease, state):
            return Outcome.REFUSED
        return _done(self._lowering.lower(client, lease, state))

    def _log_off(self, words: list[str]) -> Deed:
        named, = map(named_client, words)

        def deed() -> Outcome:
            sessions = [it for it in self._server.sessions.values() if self._is_of(named, it.connection.client)]
            for session in sessions:
                session.connection.outgoing.send_all()
                self._server.end_session(session)
            self._server.settle()
            return _done(bool(sessions))
        return deed

    def _disconnect(self, words: list[str]) -> Deed:
        named, = map(named_client, words)

        def deed() -> Outcome:
            connections = [it for it in self._server.connections if self._is_of(named, it.client)]
            for connection in connections:
                connection.outgoing.send_all()
                connection.close()
            return _done(bool(connections))
        return deed

    def _is_of(self, named: Union[int, bytes], client: ManagerClient | None) -> bool:
        return client is not None and client is self.client(named)

    # What goes wrong later

    def _refuse(self, words: list[str]) -> Deed:
        status, *words = words
        return self._fault(Action.REFUSE, words, kind_of(words[0], True), status=status_of(status))

    def _drop(self, words: list[str]) -> Deed:
        return self._fault(Action.DROP, words, kind_of(words[0]))

    def _reorder(self, words: list[str]) -> Deed:
        return self._fault(Action.REORDER, words, kind_of(words[0]))

    def _delay(self, words: list[str]) -> Deed:
        seconds, *words = words
        if not 0 <= float(seconds) <= LONGEST_DELAY:
            raise ValueError
        return self._fault(Action.DELAY, words, kind_of(words[0]), seconds=float(seconds))

    def _fault(self, action: Action, words: list[str], kind: str, status: int = 0, seconds: float = 0.0) -> Deed:
        fault = fault_of(action, words, kind, status, seconds)

        def deed() -> Outcome:
            self._server.faults.add(fault)
            return Outcome.DONE
        return deed


def fault_of(action: Action, words: list[str], kind: str, status: int = 0, seconds: float = 0.0) -> Fault:
    """`words` are a kind, and the client whose message it is to be, if that matters."""
    if len(words) > 2:
        raise ValueError
    return Fault(action, kind, named_client(words[1]) if len(words) == 2 else None, status, seconds)
