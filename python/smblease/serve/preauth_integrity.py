"""The preauthentication integrity hash of a connection or a session (3.1.1): over the messages that set it up, as they went."""
from __future__ import annotations

import hashlib


class PreauthIntegrity:
    def __init__(self, value: bytes = bytes(64)) -> None:
        self.value = value

    def add(self, message: bytes) -> None:
        self.value = hashlib.sha512(self.value + message).digest()

    def fork(self) -> PreauthIntegrity:
        """That of a session begins with its connection's."""
        return PreauthIntegrity(self.value)
