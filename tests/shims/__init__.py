"""Libraries that are preloaded into a program, so that its calls of the C library fail; compiled where a test needs one."""
from __future__ import annotations

import functools
import os
import subprocess
from pathlib import Path

from tests.paths import TESTS, TOP

BUILT = TOP / "out" / "shims"


@functools.lru_cache(maxsize=None)
def shim(name: str) -> str:
    """The path of the library that is made of NAME.c."""
    source, made = TESTS / "shims" / f"{name}.c", BUILT / f"{name}.so"
    if not made.exists() or made.stat().st_mtime < source.stat().st_mtime:
        BUILT.mkdir(parents=True, exist_ok=True)
        begun = Path(f"{made}.{os.getpid()}")
        compiler = os.environ.get("CC", "cc")
        subprocess.run([compiler, "-O2", "-Wall", "-shared", "-fPIC", "-o", begun, source], check=True)
        begun.replace(made)
    return str(made)
