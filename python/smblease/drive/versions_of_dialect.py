"""What stands between a client's machine, which speaks of leases and durable opens in version 1, and the wire: at dialects of 3
these are of version 2 there, and at 2.1 of version 1, as the machine has them."""
from __future__ import annotations

import uuid
from collections.abc import Callable

import smblease
from smblease.client_versions import ClientVersions
from smblease.serve.dialects import Dialect

FIRST_RECONNECT, SECOND_RECONNECT = b"DHnC", b"DH2C"


class Versions:
    """What a client sends and takes, by the dialect of its connection. It goes by epochs, as clients of several connections do:
    so a server whose epochs don't rise has its breaks passed over."""

    def __init__(self, make: Callable[[], ClientVersions] = ClientVersions) -> None:
        self._make = make
        self._known: ClientVersions | None = None
        self._used: ClientVersions | None = None

    def speaks(self, dialect: Dialect) -> None:
        """The client is connected, and this is spoken. What was known before is known still."""
        is_second = dialect >= Dialect.SMB_3_0
        if is_second and self._known is None:
            self._known = self._make()
        self._used = self._known if is_second else None

    def ask(self, contexts: bytes, guid: uuid.UUID) -> bytes:
        """What a CREATE is sent with. Contexts that no machine writes go as they are, which are those of raw requests."""
        return self._used.ask(contexts, guid) if self._used and is_of_a_machine(contexts) else contexts

    def answered(self, file_id: int, guid: uuid.UUID, contexts: bytes) -> bytes:
        return self._used.answered(file_id, guid, contexts) if self._used else contexts

    def noticed(self, notification: bytes) -> bytes | None:
        return self._used.noticed(notification) if self._used else notification

    def closed(self, file_id: int) -> None:
        if self._known:
            self._known.forget(file_id)

    def refused(self, contexts: bytes) -> None:
        """A CREATE with these contexts is refused, so that an open which it was to connect again is given up."""
        again = smblease.CreateAsk.read(contexts).reconnect if is_of_a_machine(contexts) else None
        if again is not None:
            self.closed(again)

    def connects_again(self, contexts: bytes) -> bool:
        """Whether a CREATE with these contexts makes no open, but connects one again."""
        names = (FIRST_RECONNECT, SECOND_RECONNECT) if self._used else (FIRST_RECONNECT,)
        return any(smblease.find_context(contexts, name) for name in names)

    def close(self) -> None:
        if self._known:
            self._known.close()


def is_of_a_machine(contexts: bytes) -> bool:
    """Whether a client's machine writes them so: a lease, a durable open or a FileId of version 1, and nothing else."""
    try:
        return smblease.CreateAsk.read(contexts).write() == contexts
    except smblease.Fault:
        return False
