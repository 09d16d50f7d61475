"""Programs and libraries that people have, each of which takes a tree of files to a share and back."""
from __future__ import annotations

import importlib
import os
import random
import shutil
import subprocess
from abc import ABC, abstractmethod
from collections.abc import Sequence
from pathlib import Path
from typing import Any

from smblease.drive.place import Place

NAMES = ("plain", "with spaces in it", "Größe", "名前", "CAPITALS", "dots.and.more", "a'b&c;d", "-dash", "x" * 60)
AT_ONCE = 65536
# the kind of an entry that is a folder, to libsmbclient
FOLDER = 7


def make_tree(folder: Path, chance: random.Random, files: int, size: int) -> None:
    """So many files in folders within folders, with so many bytes in all; some are empty."""
    folders = [folder]
    folder.mkdir()
    for number in range(files):
        if chance.random() < 0.1:
            folders.append(chance.choice(folders) / f"{chance.choice(NAMES)} {number}")
            folders[-1].mkdir()
        length = 0 if chance.random() < 0.05 else chance.randrange(2 * size // files)
        (chance.choice(folders) / f"{chance.choice(NAMES)}-{number}").write_bytes(chance.randbytes(length))


def tree_in(folder: Path) -> dict[str, bytes | None]:
    """What is below a folder: files with their bytes, and folders."""
    return {str(it.relative_to(folder)): None if it.is_dir() else it.read_bytes() for it in folder.rglob("*")}


class TreeClient(ABC):
    """`path` is of a folder of the share."""

    def __init__(self, place: Place) -> None:
        self.place = place
        self.login = f"{place.user}%{place.password}"

    @abstractmethod
    def put(self, tree: Path, path: str) -> None:
        """Takes a tree there."""

    @abstractmethod
    def get(self, path: str, folder: Path) -> None:
        """Takes it back, into a folder that is there."""

    @abstractmethod
    def rename(self, path: str, name: str) -> None:
        """Gives a folder another name."""

    @abstractmethod
    def delete(self, path: str) -> None:
        """Deletes a folder with all that is in it."""

    def close(self) -> None:
        """Ends it."""


def run(words: Sequence[str], folder: Path | None = None, **more: str) -> str:
    done = subprocess.run(words, stdin=subprocess.DEVNULL, stdout=subprocess.PIPE, stderr=subprocess.STDOUT, text=True,
                          timeout=900, cwd=folder, env={**os.environ, **more}, check=False)
    assert done.returncode == 0 and "NT_STATUS" not in done.stdout, done.stdout[-2000:]
    return done.stdout


class Smbclient(TreeClient):
    def _do(self, commands: str) -> None:
        place = self.place
        run(["smbclient", f"//{place.host}/{place.share}", "-p", str(place.port), "-U", self.login, "-c",
             f"prompt off; recurse on; {commands}"])

    def put(self, tree: Path, path: str) -> None:
        self._do(f"mkdir {path}; cd {path}; lcd {tree}; mput *")

    def get(self, path: str, folder: Path) -> None:
        self._do(f"cd {path}; lcd {folder}; mget *")

    def rename(self, path: str, name: str) -> None:
        self._do(f"rename {path} {name}")

    def delete(self, path: str) -> None:
        self._do(f"deltree {path}")


class Smbget(Smbclient):
    """It only gets."""

    def get(self, path: str, folder: Path) -> None:
        place = self.place
        run(["smbget", "-q", "-R", "-U", self.login, f"smb://{place.host}:{place.port}/{place.share}/{path}"], folder)


class Rclone(TreeClient):
    def _do(self, *words: str) -> None:
        place = self.place
        password = run(["rclone", "obscure", place.password]).strip() if place.password else ""
        run(["rclone", *words], None, RCLONE_CONFIG="/dev/null", RCLONE_SMB_HOST=place.host, RCLONE_SMB_PORT=str(place.port),
            RCLONE_SMB_USER=place.user, RCLONE_SMB_PASS=password)

    def _at(self, path: str) -> str:
        return f":smb:{self.place.share}/{path}"

    def put(self, tree: Path, path: str) -> None:
        self._do("copy", "--create-empty-src-dirs", str(tree), self._at(path))
        self._do("check", str(tree), self._at(path))

    def get(self, path: str, folder: Path) -> None:
        self._do("copy", "--create-empty-src-dirs", self._at(path), str(folder))

    def rename(self, path: str, name: str) -> None:
        self._do("moveto", self._at(path), self._at(name))

    def delete(self, path: str) -> None:
        self._do("purge", self._at(path))


class Walker(TreeClient):
    """One that takes files and folders one by one. Paths have `/` between names."""

    def put(self, tree: Path, path: str) -> None:
        self.make_folder(path)
        for it in sorted(tree.rglob("*")):
            there = f"{path}/{it.relative_to(tree)}"
            if it.is_dir():
                self.make_folder(there)
            else:
                self.put_file(it, there)

    def get(self, path: str, folder: Path) -> None:
        for name, is_folder in self.below(path):
            if is_folder:
                (folder / name).mkdir()
                self.get(f"{path}/{name}", folder / name)
            else:
                self.get_file(f"{path}/{name}", folder / name)

    def delete(self, path: str) -> None:
        for name, is_folder in self.below(path):
            if is_folder:
                self.delete(f"{path}/{name}")
            else:
                self.remove(f"{path}/{name}", False)
        self.remove(path, True)

    @abstractmethod
    def make_folder(self, path: str) -> None:
        """Makes a folder."""

    @abstractmethod
    def put_file(self, file: Path, path: str) -> None:
        """Takes a file there."""

    @abstractmethod
    def get_file(self, path: str, file: Path) -> None:
        """Takes it back."""

    @abstractmethod
    def below(self, path: str) -> list[tuple[str, bool]]:
        """The names in a folder, and whether each is a folder."""

    @abstractmethod
    def remove(self, path: str, is_folder: bool) -> None:
        """Removes a file, or a folder that is empty."""


class Gio(Walker):
    """gvfs, with a bus of its own on which the share is mounted."""

    def __init__(self, place: Place) -> None:
        super().__init__(place)
        words = ["dbus-run-session", "--", "sh", "-c", "echo $DBUS_SESSION_BUS_ADDRESS; read -r end"]
        self._bus = subprocess.Popen(words, stdin=subprocess.PIPE, stdout=subprocess.PIPE, stderr=subprocess.DEVNULL, text=True)
        assert self._bus.stdin and self._bus.stdout
        self._address = self._bus.stdout.readline().strip()
        self._root = f"smb://{place.host}:{place.port}/{place.share}"
        self._do("mount", "-a", self._root)

    def close(self) -> None:
        self._bus.communicate("")

    def _do(self, *words: str) -> str:
        return run(["gio", *words], None, DBUS_SESSION_BUS_ADDRESS=self._address)

    def make_folder(self, path: str) -> None:
        self._do("mkdir", f"{self._root}/{path}")

    def put_file(self, file: Path, path: str) -> None:
        self._do("copy", str(file), f"{self._root}/{path}")

    def get_file(self, path: str, file: Path) -> None:
        self._do("copy", f"{self._root}/{path}", str(file))

    def below(self, path: str) -> list[tuple[str, bool]]:
        rows = [line.split("\t") for line in self._do("list", "-l", "-h", f"{self._root}/{path}").splitlines()]
        return [(row[0], row[2] == "(directory)") for row in rows if len(row) == 3]

    def rename(self, path: str, name: str) -> None:
        self._do("rename", f"{self._root}/{path}", name)

    def remove(self, path: str, is_folder: bool) -> None:
        self._do("remove", f"{self._root}/{path}")


class Impacket(Walker):
    def __init__(self, place: Place) -> None:
        super().__init__(place)
        from impacket.smbconnection import SMBConnection  # pylint: disable=import-outside-toplevel
        self._smb: Any = SMBConnection(place.host, place.host, sess_port=place.port)
        self._smb.login(place.user, place.password)

    def close(self) -> None:
        self._smb.close()

    def make_folder(self, path: str) -> None:
        self._smb.createDirectory(self.place.share, path)

    def put_file(self, file: Path, path: str) -> None:
        with file.open("rb") as stream:
            self._smb.putFile(self.place.share, path, stream.read)

    def get_file(self, path: str, file: Path) -> None:
        with file.open("wb") as stream:
            self._smb.getFile(self.place.share, path, stream.write)

    def below(self, path: str) -> list[tuple[str, bool]]:
        found = self._smb.listPath(self.place.share, f"{path}/*")
        return [(it.get_longname(), bool(it.is_directory())) for it in found if it.get_longname() not in (".", "..")]

    def rename(self, path: str, name: str) -> None:
        self._smb.rename(self.place.share, path, name)

    def remove(self, path: str, is_folder: bool) -> None:
        if is_folder:
            self._smb.deleteDirectory(self.place.share, path)
        else:
            self._smb.deleteFile(self.place.share, path)


class Smbc(Walker):
    """python3-smbc, over libsmbclient."""

    def __init__(self, place: Place) -> None:
        super().__init__(place)
        self._smbc: Any = importlib.import_module("smbc").Context(
            auth_fn=lambda *_: ("", place.user, place.password))
        self._root = f"smb://{place.host}:{place.port}/{place.share}"

    def make_folder(self, path: str) -> None:
        self._smbc.mkdir(f"{self._root}/{path}")

    def put_file(self, file: Path, path: str) -> None:
        opened, data = self._smbc.open(f"{self._root}/{path}", os.O_CREAT | os.O_WRONLY), file.read_bytes()
        for place in range(0, len(data), AT_ONCE):
            part = data[place:place + AT_ONCE]
            assert opened.write(part) == len(part)
        opened.close()

    def get_file(self, path: str, file: Path) -> None:
        opened = self._smbc.open(f"{self._root}/{path}", os.O_RDONLY)
        with file.open("wb") as stream:
            shutil.copyfileobj(opened, stream, AT_ONCE)
        opened.close()

    def below(self, path: str) -> list[tuple[str, bool]]:
        found = self._smbc.opendir(f"{self._root}/{path}").getdents()
        return [(it.name, it.smbc_type == FOLDER) for it in found if it.name not in (".", "..")]

    def rename(self, path: str, name: str) -> None:
        self._smbc.rename(f"{self._root}/{path}", f"{self._root}/{name}")

    def remove(self, path: str, is_folder: bool) -> None:
        if is_folder:
            self._smbc.rmdir(f"{self._root}/{path}")
        else:
            self._smbc.unlink(f"{self._root}/{path}")
