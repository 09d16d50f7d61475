"""Trees of files that clients which people have take to a folder and back."""
from __future__ import annotations

import os
import random
from contextlib import closing
from dataclasses import replace
from pathlib import Path

import pytest

from smblease.drive.place import Place
from tests import needs
from tests.serve import trees
from tests.serve.conftest import Start
from tests.serve.modern import EVERY, PASSWORD, USER

SMALL, LARGE = (40, 3 << 20), (2000, 300 << 20)
HAS_GVFS = pytest.mark.skipif(not os.path.exists("/usr/lib/gvfs/gvfsd-smb"), reason="there is no gvfs-backends")
CLIENTS = [
    pytest.param(trees.Smbclient, marks=needs.program("smbclient"), id="smbclient"),
    pytest.param(trees.Smbget, marks=[needs.program("smbclient"), needs.program("smbget")], id="smbget"),
    pytest.param(trees.Impacket, marks=needs.package("impacket"), id="impacket"),
    pytest.param(trees.Smbc, marks=needs.package("smbc"), id="python3-smbc"),
    pytest.param(trees.Rclone, marks=needs.program("rclone"), id="rclone"),
    pytest.param(trees.Gio, marks=[HAS_GVFS, needs.program("gio"), needs.program("dbus-run-session")], id="gio"),
]


@pytest.mark.parametrize("kind", CLIENTS)
@pytest.mark.parametrize("size", [pytest.param(SMALL, id="small"), pytest.param(LARGE, id="large", marks=pytest.mark.long)])
def test_a_tree(start: Start, tmp_path: Path, chooser: random.Random, kind: type[trees.TreeClient],
                size: tuple[int, int]) -> None:
    share = tmp_path / "share"
    share.mkdir()
    place = replace(start("--folder", str(share), "--writable").place, user="guest", password="")
    goes_there_and_back(kind, place, tmp_path, chooser, size)


@pytest.mark.parametrize("kind", [it for it in CLIENTS if it.id != "gio"])
@pytest.mark.parametrize("words", [[], ["--encrypt"]], ids=["signed", "encrypted"])
@needs.package("cryptography")
def test_a_tree_at_the_dialect_that_a_client_begins_with(start: Start, tmp_path: Path, chooser: random.Random,
                                                         kind: type[trees.TreeClient], words: list[str]) -> None:
    """That is 3.1.1, and 3.0 of impacket. (gio comes as a guest.)"""
    share = tmp_path / "share"
    share.mkdir()
    place = replace(start("--folder", str(share), "--writable", *EVERY, *words).place, user=USER, password=PASSWORD)
    goes_there_and_back(kind, place, tmp_path, chooser, SMALL)


def goes_there_and_back(kind: type[trees.TreeClient], place: Place, folder: Path, chooser: random.Random,
                        size: tuple[int, int]) -> None:
    """A tree is there as it was, under another name too, and comes back; deleted it is gone."""
    given, share, got = (folder / name for name in ("given", "share", "got"))
    got.mkdir()
    trees.make_tree(given, chooser, *size)
    with closing(kind(place)) as client:
        client.put(given, "tree")
        assert trees.tree_in(share / "tree") == trees.tree_in(given)
        client.rename("tree", "moved")
        client.get("moved", got)
        assert trees.tree_in(got) == trees.tree_in(given)
        assert not (share / "tree").exists()
        client.delete("moved")
        assert not (share / "moved").exists()
