"""Streams, which have no place on disk beside their files: each is a file of a temporary folder, and goes with the server."""
from __future__ import annotations

import itertools
from typing import NamedTuple, Tuple

from smblease import Status
from smblease.serve.disk import Disk
from smblease.serve.names import folded
from smblease.serve.status_error import StatusError

MOST = 4096
Identity = Tuple[int, int]


class Stream(NamedTuple):
    name: str
    # in the temporary folder
    place: str


class Streams:
    """By their files, and by their own names, whose case doesn't matter."""

    def __init__(self, disk: Disk) -> None:
        self.disk = disk
        self._streams: dict[tuple[Identity, str], Stream] = {}
        self._places = itertools.count(1)

    def find(self, file: Identity, name: str) -> Stream | None:
        return self._streams.get((file, folded(name)))

    def make(self, file: Identity, name: str) -> Stream:
        if len(self._streams) == MOST:
            raise StatusError(Status.INSUFFICIENT_RESOURCES)
        return self._streams.setdefault((file, folded(name)), Stream(name, str(next(self._places))))

    def of(self, file: Identity) -> list[Stream]:
        return [stream for known, stream in self._streams.items() if known[0] == file]

    def forget(self, place: str) -> None:
        self._streams = {known: stream for known, stream in self._streams.items() if stream.place != place}
