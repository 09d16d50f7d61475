"""Compiles the programs in C that the tests run, and runs them."""
from __future__ import annotations

import fcntl
import functools
import os
import shutil
import subprocess
from dataclasses import dataclass
from pathlib import Path

from tests.paths import TOP

# Where this is set, programs are compiled for another processor, over the library in out/ that was built for it, and emulated.
PROCESSOR = os.environ.get("SMBLEASE_PROCESSOR", "")
EMULATED = (f"qemu-{PROCESSOR}", "-L", f"/usr/{PROCESSOR}-linux-gnu") if PROCESSOR else ()
CC = os.environ.get("CC", f"{PROCESSOR}-linux-gnu-gcc" if PROCESSOR else "cc")
CXX = os.environ.get("CXX", "c++")
LIBRARY = TOP / "out" / (PROCESSOR or "c") / "libsmblease.a"
LEASECHECK = TOP / "out/c/leasecheck"
STRICT = ("-Wall", "-Wextra", "-pedantic", "-Werror")
SANITIZED = ("-g", "-O1", "-fsanitize=address,undefined", "-fno-sanitize-recover=all")
CHECKED = ("-O1",) if PROCESSOR else SANITIZED
# The linker sends the library's allocations to tests/c/refuse_calls.c.
WRAPPED = ("-Wl,--wrap=malloc", "-Wl,--wrap=realloc", "-Wl,--wrap=free")


@dataclass(frozen=True)
class Ended:
    """What a program printed on its two streams, and its exit status."""

    status: int
    output: str
    errors: str = ""


# The programs that were compiled here.
_COMPILED: set[Path] = set()


def run(*words: str | Path, variables: dict[str, str] | None = None) -> Ended:
    emulated = EMULATED if words[0] in _COMPILED else ()
    done = subprocess.run([str(it) for it in (*emulated, *words)], stdin=subprocess.DEVNULL, capture_output=True, cwd=TOP,
                          env={**os.environ, **(variables or {})}, check=False)
    return Ended(done.returncode, done.stdout.decode(errors="replace"), done.stderr.decode(errors="replace"))


def pkg_config(prefix: Path, *words: str) -> Ended:
    """What pkg-config says of the library that was installed below a prefix."""
    return run("pkg-config", *words, "smblease", variables={"PKG_CONFIG_PATH": f"{prefix}/lib/pkgconfig"})


def has(tool: str) -> bool:
    return shutil.which(tool) is not None


@functools.lru_cache(maxsize=None)
def made() -> Ended:
    """`make`, by one process at a time."""
    with open(TOP / "Makefile", encoding="utf-8") as lock:
        fcntl.flock(lock, fcntl.LOCK_EX)
        return run("make")


def program(folder: Path, *sources: str, standard: str = "c99", flags: tuple[str, ...] = (),
            checks: tuple[str, ...] = CHECKED) -> Path:
    """A program of these sources over the static library, checked for its use of memory while it runs."""
    out = folder / Path(sources[0]).stem
    done = run(CC, f"-std={standard}", *STRICT, *checks, "-Iinclude", "-o", out, *sources, LIBRARY, *flags)
    assert done == Ended(0, ""), done.errors
    _COMPILED.add(out)
    return out


@functools.lru_cache(maxsize=None)
def replayed(schedule: Path) -> str:
    """The record that `leasecheck replay` prints of a schedule, without its verdict."""
    done = run(LEASECHECK, "replay", schedule)
    facts, _, verdict = done.output.rpartition("# safe")
    assert (done.status, verdict) == (0, "\n"), done
    return facts
