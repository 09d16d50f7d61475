"""serve/run with a manager that isn't the proved one, or a disk that is slow or needs too much:
`python3 odd_servers.py KIND serve/run WORD..`."""
from __future__ import annotations

import errno
import itertools
import os
import sys
import time
from typing import Any

TOP = os.path.dirname(os.path.dirname(os.path.dirname(os.path.abspath(__file__))))
sys.path.insert(0, os.path.join(TOP, "python"))

from smblease import Access, MachineLost, Manager, Rules, Share  # noqa: E402  # pylint: disable=wrong-import-position
from smblease.manager_decisions import Decisions  # noqa: E402  # pylint: disable=wrong-import-position
from smblease.serve import disk_bytes, manager_host, run_command, transfers  # noqa: E402  # pylint: disable=wrong-import-position

CREATES = itertools.count(1)


class Forgetful(Manager):
    """It finds no memory at the third create of all."""

    def create(self, *words: Any) -> Decisions:
        if next(CREATES) == 3:
            self.close()
            raise MachineLost
        return super().create(*words)


class Wrong(Manager):
    """Client 2 is asked for by itself, as if it were alone."""

    def __init__(self, rules: Rules) -> None:
        super().__init__(rules)
        self._other = Manager(rules)
        self._other.join(1)
        for tag in range(100):
            self._other.create(1, tag, 77, Access.READ, Share.READ_WRITE)

    def join(self, client: int) -> None:
        super().join(client)
        self._other.join(client)

    def create(self, client: int, *words: Any) -> Decisions:
        return self._other.create(client, *words) if client == 2 else super().create(client, *words)


class GreedyReads:
    """The first read needs more memory than there is, and the second one a deeper stack."""

    def __init__(self) -> None:
        self._faults = iter((MemoryError, RecursionError))

    def __call__(self, descriptor: int, offset: int, length: int) -> bytes:
        for fault in self._faults:
            raise fault
        return disk_bytes.read_bytes(descriptor, offset, length)


class SlowDisk:
    """The module `os`, but that a disk takes its time for a flush, and then fails the second one."""

    def __init__(self) -> None:
        self._flushes = 0

    def __getattr__(self, name: str) -> Any:
        return getattr(os, name)

    def fsync(self, _: int) -> None:
        self._flushes += 1
        time.sleep(1)
        if self._flushes == 2:
            raise OSError(errno.EIO, os.strerror(errno.EIO))


KINDS = {"forgetful": (manager_host, "Manager", Forgetful), "wrong": (manager_host, "Manager", Wrong),
         "greedy": (transfers, "read_bytes", GreedyReads()), "slow": (transfers, "os", SlowDisk())}

if __name__ == "__main__":
    setattr(*KINDS[sys.argv[1]])
    sys.exit(run_command.main(sys.argv[3:]))
