"""The cargo workspace: which crate becomes modules of which package, and all files that are made."""

from __future__ import annotations

import shutil
import subprocess
from dataclasses import dataclass
from pathlib import Path
from typing import Iterator, Mapping, Sequence

from plain_rust.erasing import erased
from plain_rust.exports import write_exports
from plain_rust.faults_written import write_faults
from plain_rust.laws import Laws
from plain_rust.running import write_running
from plain_rust.sources import Crate, read_crates
from plain_rust.unread import Unread
from plain_rust.writing import Place, allowed, place_of, written

# What tells from which sources the modules were made.
DIGEST = Path("SOURCES")
RUSTFMT = ("rustfmt", "--edition", "2024")
HEAD = "//! The proved crates as modules, without their contracts.\n//!\n//! Made by tools/plain_rust.\n"


@dataclass(frozen=True)
class Package:
    """A package of the workspace: the crates that become its modules."""

    name: str
    crates: tuple[str, ...]

    def paths_within(self) -> dict[str, str]:
        """Where its crates stand, for its own modules."""
        return {crate: f"crate::proved::{crate}" for crate in self.crates}

    def paths_outside(self) -> dict[str, str]:
        """Where its crates stand, for other packages."""
        return {crate: f"{self.name}::proved::{crate}" for crate in self.crates}


PACKAGES = (
    Package(
        "smblease",
        (
            *("lease_state", "lease_wire", "lease_manager", "break_timers", "share_server", "lease_client", "lease_facts"),
            *("lease_world", "kept_opens", "waiting_changes", "capture_wire", "lease_wire_v2", "lease_versions"),
            "client_versions",
        ),
    ),
    Package("smblease_c", ("lease_c", "machines_c")),
    Package(
        "leasecheck",
        (
            *("capture_judge", "capture_walk", "lease_reasons", "lease_texts"),
            *("capture_texts", "lease_lines", "record_words", "text_laws", "leasecheck"),
        ),
    ),
)


def unplaced(crates: Mapping[str, Crate]) -> list[str]:
    """The crates with something left in them that no package has."""
    placed = {crate for package in PACKAGES for crate in package.crates}
    return [name for name, crate in crates.items() if name not in placed and not crate.modules[()].is_empty]


def prepare(crates: Mapping[str, Crate]) -> None:
    """Makes plain Rust of all modules, where they stand in their crates."""
    for crate in crates.values():
        for module in crate.modules.values():
            module.items = erased(module, module.items)
            write_faults(module)
    Laws(crates).drop()
    for crate in crates.values():
        for path, module in crate.modules.items():
            write_running(module, not path and crate.is_program)
            write_exports(module)
    Unread(crates).drop()


def root_of(crate: str) -> Path:
    """The file of a crate's root, below the package's folder."""
    return Path("src", "proved", f"{crate}.rs")


def place_in(package: Package, crate: Crate) -> Place:
    """Where a crate of a package stands."""
    others: dict[str, str] = {}
    for other in PACKAGES:
        others |= other.paths_outside()
    return place_of(crate, package.paths_within(), others)


def files_of(package: Package, crate: Crate) -> Iterator[tuple[Path, str]]:
    """Each file that a crate becomes, with its text."""
    root = root_of(crate.name)
    folder = root.with_suffix("")
    place = place_in(package, crate)
    for path, module in crate.modules.items():
        yield (folder.joinpath(*path).with_suffix(".rs") if path else root), written(module, place)


def list_of(package: Package) -> str:
    """The file that has the package's crates as modules."""
    return HEAD + allowed() + "\n" + "".join(f"pub mod {crate};\n" for crate in sorted(package.crates))


def all_files(crates: Mapping[str, Crate]) -> Iterator[tuple[Path, str]]:
    """Each file that is made, below the workspace's folder, with its text."""
    for package in PACKAGES:
        yield Path(package.name, "src", "proved.rs"), list_of(package)
        for name in package.crates:
            for file, text in files_of(package, crates[name]):
                yield Path(package.name, file), text


def roots() -> list[Path]:
    """The files that lead to all others."""
    return [Path(package.name, "src", "proved.rs") for package in PACKAGES]


def made_folders() -> list[Path]:
    """The folders in which every file is made."""
    return [Path(package.name, "src", "proved") for package in PACKAGES]


def lay_out(folder: Path, settings: Path, files: Sequence[Path]) -> None:
    """Has rustfmt lay out these files and those that they lead to."""
    subprocess.run([*RUSTFMT, "--config-path", str(settings), *(str(folder / file) for file in files)], check=True)


def write(repository: Path, folder: Path) -> int:
    """Writes all files below a folder, where nothing stays of what was made before; returns how many there are."""
    crates = read_crates(repository)
    prepare(crates)
    if unplaced(crates):
        raise ValueError(f"no package has {', '.join(unplaced(crates))}")
    for made in made_folders():
        shutil.rmtree(folder / made, ignore_errors=True)
    count = 0
    for file, text in all_files(crates):
        (folder / file).parent.mkdir(parents=True, exist_ok=True)
        (folder / file).write_text(text, encoding="utf-8")
        count += 1
    lay_out(folder, repository / "rust" / "rustfmt.toml", roots())
    (folder / DIGEST).write_bytes(subprocess.check_output([repository / "tools" / "rust_sources"]))
    return count
