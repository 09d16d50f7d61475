"""The commit that this package was made from."""
from __future__ import annotations

import subprocess
from pathlib import Path

# What a wheel has (tools/hatch_build.py), and what says it in a clone.
KEPT = Path(__file__).with_name("COMMIT")
TOOL = Path(__file__).parents[2] / "tools" / "commit"


def commit() -> str:
    """As `tools/commit` prints it; empty where nobody knows."""
    if KEPT.is_file():
        return KEPT.read_text(encoding="utf-8").strip()
    if not TOOL.is_file():
        return ""
    return subprocess.run([TOOL], stdout=subprocess.PIPE, stderr=subprocess.DEVNULL, text=True, check=False).stdout.strip()
