"""Keys of sessions that are over: what a client still asks in the name of one is answered as it was signed."""
from __future__ import annotations

from smblease.serve.signing import Signer

# Those of one connection, the newest.
MOST_KEYS = 64


class FormerKeys:
    def __init__(self) -> None:
        self._keys: dict[int, Signer] = {}

    def keep(self, session: int, key: Signer) -> None:
        self._keys.pop(session, None)
        self._keys[session] = key
        if len(self._keys) > MOST_KEYS:
            del self._keys[next(iter(self._keys))]

    def of(self, session: int) -> Signer | None:
        return self._keys.get(session)
