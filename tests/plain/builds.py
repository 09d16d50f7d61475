"""The program and the library as cargo builds them from rust/."""
from __future__ import annotations

import functools
import os
import subprocess
from pathlib import Path

from tests.paths import TOP

PLAIN = {"SMBLEASE_BUILD": "plain"}


@functools.lru_cache(maxsize=None)
def plain_folder() -> Path:
    """The folder of what cargo builds, which is built first where it is older than rust/."""
    return Path(subprocess.check_output([TOP / "tools" / "current"], env={**os.environ, **PLAIN}, text=True).strip())


@functools.lru_cache(maxsize=None)
def proved_folder() -> Path:
    """The folder of what was proved and built."""
    others = {name: value for name, value in os.environ.items() if name not in PLAIN}
    return Path(subprocess.check_output([TOP / "tools" / "current"], env=others, text=True).strip())
