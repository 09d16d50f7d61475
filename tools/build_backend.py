"""The backend that pip calls (PEP 517). It is hatchling, which is looked for among Debian's packages too, whichever Python and
environment asks: where it is there, nothing is fetched."""
# pylint: disable=import-outside-toplevel
from __future__ import annotations

import importlib.util
import os
import sys
from typing import Optional

DEBIAN = "/usr/lib/python3/dist-packages"
NEEDED = "hatchling>=1.12"
# What it reads pyproject.toml by, where Python can't by itself.
MODULES = ["hatchling", *(["tomli"] if sys.version_info < (3, 11) else [])]
Settings = Optional[dict[str, str]]


def _is_found() -> bool:
    def has_all() -> bool:
        return all(importlib.util.find_spec(it) for it in MODULES)
    if not has_all() and os.path.isdir(DEBIAN) and DEBIAN not in sys.path:
        sys.path.append(DEBIAN)
    return has_all()


def get_requires_for_build_wheel(_: Settings = None) -> list[str]:
    return [] if _is_found() else [NEEDED]


get_requires_for_build_sdist = get_requires_for_build_editable = get_requires_for_build_wheel


def build_wheel(folder: str, settings: Settings = None, metadata: str | None = None) -> str:
    _check()
    from hatchling import build
    return build.build_wheel(folder, settings, metadata)


def build_editable(folder: str, settings: Settings = None, metadata: str | None = None) -> str:
    _check()
    from hatchling import build
    return build.build_editable(folder, settings, metadata)


def build_sdist(folder: str, settings: Settings = None) -> str:
    _check()
    from hatchling import build
    return build.build_sdist(folder, settings)


def _check() -> None:
    if not _is_found():
        sys.exit(f"the wheel is made by {NEEDED}, which isn't there: apt install python3-hatchling, or pip install hatchling")
