"""Captures that are made while something runs."""
from __future__ import annotations

import signal
import subprocess
import time
from collections.abc import Iterator
from contextlib import contextmanager
from pathlib import Path


@contextmanager
def capturing(path: Path, what: str = "tcp") -> Iterator[None]:
    """Has dumpcap write what goes over loopback; `what` is a filter of packets."""
    words = ["dumpcap", "-q", "-i", "lo", "-w", str(path), "-f", what]
    with subprocess.Popen(words, stderr=subprocess.PIPE, text=True) as process:
        assert process.stderr
        while not process.stderr.readline().startswith("File:"):
            assert process.poll() is None, "dumpcap doesn't run"
        time.sleep(0.2)
        try:
            yield
            time.sleep(0.5)
        finally:
            process.send_signal(signal.SIGINT)
            process.communicate()
