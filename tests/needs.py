"""Marks of tests that are skipped where a program, a package or a right isn't there."""
from __future__ import annotations

import importlib.util
import os
import platform
import shutil
import subprocess

import pytest

from tests.paths import TOP

INSTALLS = "tools/setup installs it"


def program(name: str) -> pytest.MarkDecorator:
    there = shutil.which(name, path=f"{os.environ.get('PATH', '')}:/usr/sbin:/sbin")
    return pytest.mark.skipif(not there, reason=f"there is no {name}; {INSTALLS}")


def package(name: str) -> pytest.MarkDecorator:
    return pytest.mark.skipif(importlib.util.find_spec(name) is None, reason=f"there is no package {name}; {INSTALLS}")


def _dist_fits() -> bool:
    made_from = TOP / "dist" / "x86_64-linux" / "SOURCES"
    return made_from.exists() and made_from.read_bytes() == subprocess.run([TOP / "tools" / "sources"], stdout=subprocess.PIPE,
                                                                          check=True).stdout


HAS_PROVED = any((TOP / it / "leasecheck").exists() for it in ("dist/x86_64-linux", "out/proved"))
IS_BY_CARGO = os.environ.get("SMBLEASE_BUILD") == "plain" or not HAS_PROVED or platform.machine() != "x86_64"
# What compares whole texts of help.
OWN_HELP = pytest.mark.skipif(IS_BY_CARGO, reason="help is laid out by another version of clap")
DIST = pytest.mark.skipif(not _dist_fits(), reason="there is no dist/ of these sources")
ROOT = pytest.mark.skipif(os.geteuid() != 0, reason="this isn't root")
