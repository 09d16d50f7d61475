"""Names that differ in case, in folders that change, here and by others."""
from __future__ import annotations

import os
import random
import time
from pathlib import Path

import pytest

from smblease.serve import folder_names
from smblease.serve.disk import Disk
from smblease.serve.folder_names import FolderNames

NAMES = ["File", "FILE", "file", "Other", "OTHER", "Ö", "ö", "third"]


def found(disk: Disk, name: str) -> str | None:
    located = disk.locate(name)
    return located.path if located else None


def expected(names: list[str], name: str) -> set[str | None]:
    """The name itself, else any that differs in case."""
    alike: set[str | None] = {it for it in names if it.lower() == name.lower()}
    return {name} if name in names else alike or {None}


def test_names_in_a_folder_that_changes(tmp_path: Path, chooser: random.Random) -> None:
    """Whatever is made, renamed and removed, by the server or by others, what is found is there."""
    disk = Disk(str(tmp_path))
    (tmp_path / "below").mkdir()
    for _ in range(2000):
        folder, name = chooser.choice(["", "below\\"]), chooser.choice(NAMES)
        path = tmp_path / folder.strip("\\") / name
        there = path.exists()
        kind = chooser.randrange(6)
        if kind == 0 and not there:
            os.close(disk.make_file(f"{folder}{name}", False))
        elif kind == 1 and there:
            disk.remove(f"{folder}{name}", (path.stat().st_dev, path.stat().st_ino), False)
        elif kind == 2 and there:
            target = f"{chooser.choice(['', 'below'])}\\{chooser.choice(NAMES)}".strip("\\")
            disk.rename(f"{folder}{name}", target, (path.stat().st_dev, path.stat().st_ino))
        elif kind == 3 and chooser.random() < 0.1:
            # The clock of the disk goes by ticks, within which changes can't be seen.
            time.sleep(0.02)
            path.write_bytes(b"")
            time.sleep(0.02)
        names = [it.name for it in path.parent.iterdir()]
        wanted = chooser.choice(NAMES)
        one = found(disk, f"{folder}{wanted}")
        assert (one.rpartition("\\")[2] if one else None) in expected(names, wanted)
    disk.close()


def test_a_folder_is_listed_once(tmp_path: Path, monkeypatch: pytest.MonkeyPatch) -> None:
    """However many files are made in it."""
    listed: list[int] = []

    def counted(folder: int) -> list[bytes]:
        listed.append(folder)
        return [os.fsencode(it) for it in os.listdir(tmp_path)]
    monkeypatch.setattr(folder_names, "names_in", counted)
    disk = Disk(str(tmp_path))
    for number in range(100):
        assert disk.locate(f"name-{number}") is None
        os.close(disk.make_file(f"name-{number}", False))
    assert (len(listed), found(disk, "NAME-99")) == (1, "name-99")
    disk.close()


def test_how_many_names_are_known(tmp_path: Path) -> None:
    """Of many folders those are forgotten that were asked for before the others."""
    names = FolderNames(most=25)
    for number in range(10):
        (tmp_path / str(number)).mkdir()
        for name in "abcdef":
            (tmp_path / str(number) / name).write_bytes(b"")
        folder = os.open(tmp_path / str(number), os.O_RDONLY)
        assert names.alike(folder, "A") == ["a"]
        os.close(folder)
    # pylint: disable-next=protected-access  # what is known is seen nowhere else
    assert len(names._known) == 3
