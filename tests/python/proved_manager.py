"""The proved manager of leases, over restarts of its host."""
from __future__ import annotations

from typing import Any

from smblease import Manager, Rules
from tests.python.plain_tables import Listed


class ProvedManager:
    """It takes the calls of smblease.Manager, and `restart`."""

    def __init__(self, rules: Rules, files: int) -> None:
        self._rules, self._files = rules, files
        self._manager = Manager(rules, files)

    def restart(self) -> Listed:
        kept = self._manager.export()
        self._manager.close()
        self._manager = Manager(self._rules, self._files, kept)
        assert self._manager.export() == kept
        return self._manager.opens(), self._manager.leases()

    def __getattr__(self, name: str) -> Any:
        return getattr(self._manager, name)
