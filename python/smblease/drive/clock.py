"""The clocks of a private server's processes: a library that is preloaded, and the file that it reads (clock.c)."""
from __future__ import annotations

import mmap
import os
import struct
import subprocess

from smblease.drive.faults import DriveFault

SOURCE = os.path.join(os.path.dirname(os.path.abspath(__file__)), "clock.c")
PAIRS = 256
PAIR = struct.Struct("<qq")


def library() -> str:
    """The preloaded library, compiled where it isn't there or is older than its source."""
    folder = os.path.join(os.environ.get("XDG_CACHE_HOME") or os.path.expanduser("~/.cache"), "leasecheck-drive")
    path = os.path.join(folder, "clock.so")
    if os.path.exists(path) and os.path.getmtime(path) >= os.path.getmtime(SOURCE):
        return path
    own = f"{path}.{os.getpid()}"
    try:
        os.makedirs(folder, exist_ok=True)
        subprocess.run(["cc", "-O2", "-Wall", "-Wextra", "-shared", "-fPIC", "-o", own, SOURCE], check=True,
                       capture_output=True, timeout=60)
        os.replace(own, path)
    except (OSError, subprocess.SubprocessError) as fault:
        raise DriveFault(f"the clock library can't be compiled: {fault}") from None
    return path


class Clocks:
    """The file of processes and the seconds that their clocks are ahead."""

    def __init__(self, path: str) -> None:
        self.path = path
        self._processes: list[int] = []
        with open(path, "w+b") as file:
            file.truncate(PAIRS * PAIR.size)
            self._pairs = mmap.mmap(file.fileno(), PAIRS * PAIR.size)

    def put_forward(self, process: int, seconds: int) -> None:
        if process not in self._processes:
            self._add(process)
        place = self._processes.index(process)
        struct.pack_into("<q", self._pairs, place * PAIR.size + 8, seconds)
        struct.pack_into("<q", self._pairs, place * PAIR.size, process)

    def _add(self, process: int) -> None:
        """In the place of one that has ended, where there is one."""
        ended = next((it for it in self._processes if not os.path.exists(f"/proc/{it}")), None)
        if ended is not None:
            self._processes[self._processes.index(ended)] = process
        elif len(self._processes) == PAIRS - 1:
            raise DriveFault("there are too many processes for the clock library")
        else:
            self._processes.append(process)

    def close(self) -> None:
        self._pairs.close()
