"""The program of rust/server_comparison, as cargo builds it."""
from __future__ import annotations

import functools
import subprocess
from pathlib import Path

from tests.paths import TOP


@functools.lru_cache(maxsize=None)
def built() -> Path:
    words = ["build", "--quiet", "--release", "--package", "server_comparison"]
    subprocess.run([TOP / "tools" / "cargo", *words], check=True, timeout=600)
    return TOP / "out" / "rust" / "release" / "server_comparison"
