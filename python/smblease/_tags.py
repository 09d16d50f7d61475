"""The tags under which requests and changes wait at a manager, as its decisions tell them."""
from __future__ import annotations

from typing import Dict, Iterable, Set

from smblease.manager_decisions import Closed, Decisions, GoesOn, Opened, Refused, Waits, Withdrawn

_ANSWERS = frozenset((Opened, GoesOn, Closed, Refused, Withdrawn))


class WaitingTags:
    """Each tag that is taken by a request or a change that waits, and by whose."""

    def __init__(self) -> None:
        self._clients: Dict[int, int] = {}
        self._of_client: Dict[int, Set[int]] = {}

    def check(self, tag: int) -> None:
        """Refuses a tag that is taken."""
        if tag in self._clients:
            raise ValueError(f"a request or a change of client {self._clients[tag]} waits under tag {tag}")

    def follow(self, decisions: Decisions) -> None:
        """Takes the tags of what waits from now on, and frees those of what was answered."""
        for decision in decisions:
            if isinstance(decision, Waits):
                self._clients[decision.tag] = decision.client
                self._of_client.setdefault(decision.client, set()).add(decision.tag)
            elif self._clients and type(decision) in _ANSWERS:
                # (all of which have a tag)
                self._free(getattr(decision, "tag"))

    def forget(self, client: int) -> None:
        """Frees all tags of what the client asked for."""
        for tag in self._of_client.pop(client, ()):
            del self._clients[tag]

    def leave(self, client: int, tags: Iterable[int]) -> None:
        """Frees those of these tags that are taken by the client."""
        for tag in tags:
            if self._clients.get(tag) == client:
                self._free(tag)

    def _free(self, tag: int) -> None:
        client = self._clients.pop(tag, None)
        if client is None:
            return
        tags = self._of_client[client]
        tags.remove(tag)
        if not tags:
            del self._of_client[client]
