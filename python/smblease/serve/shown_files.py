"""What clients are shown of a file's times and of its number."""
from __future__ import annotations

import os
from collections.abc import Callable

from smblease.serve.streams import Identity


class ShownFiles:
    """They are shown what is on disk, which keeps both by itself."""

    def shown(self, found: os.stat_result) -> os.stat_result:
        return found

    def made(self, file: Identity) -> None:
        """It is new, though another one may have had its place on disk."""

    def changed(self, file: Identity) -> None:
        """Its bytes are others."""

    def names_changed(self, folder: Callable[[], Identity | None]) -> None:
        """A folder has other names in it."""

    def times_set(self, file: Identity, accessed: int | None, written: int | None) -> None:
        """A client set those that aren't None."""


ON_DISK = ShownFiles()
