"""Wheels and sdists made without a network by the backend that is installed here, and environments of every Python at hand."""
from __future__ import annotations

import os
import subprocess
import sys
from pathlib import Path

from tests import needs
from tests.paths import TOP

# Nothing is looked for on an index.
VARIABLES = {"PIP_NO_INDEX": "1", "PIP_DISABLE_PIP_VERSION_CHECK": "1", "PATH": "/usr/bin:/bin"}
OLDEST = (3, 9)
MARKS = [needs.package("hatchling"), needs.package("pip"), needs.package("ensurepip")]


def version_in(text: str) -> tuple[int, ...]:
    return tuple(int(it) for it in text.split(".") if it.isdigit())


def pythons() -> list[Path]:
    """That of the tests, and those of pyenv which are new enough."""
    folders = sorted((Path.home() / ".pyenv" / "versions").glob("3.*"), key=lambda it: version_in(it.name))
    found = [it / "bin" / "python3" for it in folders if version_in(it.name) >= OLDEST]
    return [Path(sys.executable), *(it for it in found if it.exists())]


def label(python: Path) -> str:
    """What a Python is called in the name of a case."""
    return python.parent.parent.name


def ran(words: list[object], folder: Path, **variables: str) -> subprocess.CompletedProcess[str]:
    """A command in a folder, which finds nothing of this repository by its environment."""
    build = {it: os.environ[it] for it in ("SMBLEASE_BUILD",) if it in os.environ}
    env = {**VARIABLES, "HOME": str(folder), **build, **variables}
    return subprocess.run(list(map(str, words)), cwd=folder, env=env, stdin=subprocess.DEVNULL, capture_output=True, text=True,
                          check=False, timeout=300)


def environment(python: Path, folder: Path) -> Path:
    """The folder of programs of a fresh environment."""
    made = ran([python, "-m", "venv", folder / "environment"], folder)
    assert made.returncode == 0, made
    return folder / "environment" / "bin"


def printed(words: list[object], folder: Path) -> str:
    done = ran(words, folder)
    assert (done.returncode, done.stderr) == (0, ""), done
    return done.stdout


def made_wheel(source: Path, folder: Path) -> Path:
    """The wheel of a clone or of an sdist."""
    done = ran([sys.executable, "-m", "pip", "wheel", "--no-build-isolation", "--no-deps", "--wheel-dir", folder, source], folder)
    assert done.returncode == 0, done
    [wheel] = folder.glob("*.whl")
    return wheel


def made_sdist(folder: Path) -> Path:
    program = f"import os, build_backend; os.chdir({str(TOP)!r}); build_backend.build_sdist({str(folder)!r})"
    done = ran([sys.executable, "-c", program], folder, PYTHONPATH=str(TOP / "tools"))
    assert done.returncode == 0, done
    [sdist] = folder.glob("*.tar.gz")
    return sdist
