"""Names, and what on disk somebody has open by them."""
from __future__ import annotations

import errno
import logging
import os
import resource

from smblease import Status
from smblease.serve.disk import KIND, Disk, Located, stat_in
from smblease.serve.file_numbers import FileNumbers
from smblease.serve.folder_names import names_in
from smblease.serve.kept_attributes import WRITABLE
from smblease.serve.names import folded, joined, sent_name, split
from smblease.serve.node import Node
from smblease.serve.shown_files import ON_DISK, ShownFiles
from smblease.serve.status_error import StatusError
from smblease.serve.streams import Identity, Streams

LOG = logging.getLogger("serve")
MOST_WARNINGS = 1000
# Numbers of folders are far from those of files, which a record has from 1 on.
FOLDERS = 1 << 62


class Namespace:
    """A name is looked up on disk each time. What is held has a descriptor, by which it stays the same whatever becomes of its
    name."""

    def __init__(self, disk: Disk, streams: Streams, shown: ShownFiles = ON_DISK) -> None:
        self.disk, self._streams, self._shown = disk, streams, shown
        # by their paths
        self._held: dict[str, Node] = {}
        self._numbers, self._numbers_of_folders = FileNumbers(), FileNumbers(FOLDERS)
        self._left_out: set[bytes] = set()
        # the other half of the descriptors is for connections, but for some that are needed for a moment
        limit = resource.getrlimit(resource.RLIMIT_NOFILE)[0]
        self._most = max(64, limit // 2)
        self.most_connections = max(16, limit - self._most - 16 - min(64, limit // 8))

    # What is there

    def find(self, path: str) -> Node | None:
        if ":" in path:
            base, _, stream = path.partition(":")
            located = self.disk.locate(base)
            return self._find_stream(located, stream) if located else None
        located = self.disk.locate(path)
        return self._known(located.path, located.stat) if located else None

    def _find_stream(self, base: Located, name: str) -> Node | None:
        found = self._streams.find((base.stat.st_dev, base.stat.st_ino), name)
        located = self._streams.disk.locate(found.place) if found else None
        if found is None or located is None:
            return None
        return self._known(f"{base.path}:{found.name}", located.stat, found.place)

    def _known(self, path: str, found: os.stat_result, stream_place: str | None = None) -> Node:
        """The one that is held, unless something else has its name by now."""
        known = self._held.get(path)
        if known and known.identity == (found.st_dev, found.st_ino):
            return known
        if known:
            self._lose(known)
        return Node(path, found, stream_place, self._shown)

    def _lose(self, node: Node) -> None:
        node.is_gone = True
        if self._held.get(node.path) is node:
            del self._held[node.path]

    def held(self, folder: Node, name: str) -> Node | None:
        """What is held of this name in a folder."""
        return self._held.get(joined(folder.path, name))

    def held_at(self, path: str) -> Node | None:
        return self._held.get(path)

    def held_folder_of(self, path: str) -> Node | None:
        """The folder that a new name of this path is for, if it is held."""
        folder = self.disk.locate_folder(split(path.partition(":")[0])[0])
        return None if folder is None else self._held.get(folder)

    def opened_below(self, folder: Node) -> list[Node]:
        """What somebody has open in a folder, or deeper."""
        if not folder.is_folder:
            return []
        return [it for it in self._held.values() if it.opens and it.path.startswith(f"{folder.path}\\")]

    def folder_of(self, path: str) -> str:
        """The folder that a new name is for. It is refused where that isn't there, or not for long."""
        folder = self.disk.locate_folder(split(path)[0])
        if folder is None:
            raise StatusError(Status.OBJECT_PATH_NOT_FOUND)
        known = self._held.get(folder)
        if known and known.is_deleting:
            raise StatusError(Status.DELETE_PENDING)
        return folder

    def has_folder_of(self, path: str) -> bool:
        return self.disk.locate_folder(split(path)[0]) is not None

    def names_below(self, folder: Node) -> list[str]:
        """The names in a folder that is held, but for those that can't be sent, and what isn't served."""
        names = [(it, sent_name(it)) for it in names_in(folder.file)]
        for name in [it for it, text in names if text is None]:
            self._warn(name)
        return sorted((text for _, text in names if text is not None), key=folded)

    def _warn(self, name: bytes) -> None:
        if name not in self._left_out and len(self._left_out) < MOST_WARNINGS:
            self._left_out.add(name)
            LOG.warning("%s: a name that can't be sent, which is left out", ascii(name)[2:-1])

    @staticmethod
    def has_below(folder: Node) -> bool:
        return bool(names_in(folder.file))

    def stat_below(self, folder: Node, name: str) -> os.stat_result | None:
        found = stat_in(folder.file, name)
        return self._shown.shown(found) if found else None

    # What is held

    def hold(self, node: Node) -> Node:
        """Opens it, where nobody holds it yet. What can't be opened raises OSError."""
        if not node.users:
            self._check_room()
            disk = self._streams.disk if node.is_stream else self.disk
            if node.is_folder:
                descriptor, is_writable = disk.open_folder(node.place), False
            else:
                descriptor, is_writable = disk.open_file(node.stream_place or node.path)
            self._begin(node, descriptor, is_writable)
        node.users += 1
        return node

    def _check_room(self) -> None:
        if len(self._held) >= self._most:
            raise StatusError(Status.INSUFFICIENT_RESOURCES)

    def _begin(self, node: Node, descriptor: int, is_writable: bool) -> None:
        found = os.fstat(descriptor)
        if (found.st_dev, found.st_ino) != node.identity or found.st_mode & KIND != node.found.st_mode & KIND:
            os.close(descriptor)
            raise FileNotFoundError(errno.ENOENT, "another file has the name by now")
        node.descriptor, node.is_writable = descriptor, is_writable
        node.number = self._numbers_for(node).take(node.identity)
        self._held[node.path] = node

    def _numbers_for(self, node: Node) -> FileNumbers:
        return self._numbers_of_folders if node.is_folder else self._numbers

    def release(self, node: Node) -> None:
        node.users -= 1
        if node.users:
            return
        os.close(node.file)
        node.descriptor = None
        self._numbers_for(node).give_back(node.identity, node.is_gone)
        if self._held.get(node.path) is node:
            del self._held[node.path]

    def make_writable(self, node: Node) -> None:
        """A file that could only be read when it was opened may be writable by now. Where it isn't, OSError is raised."""
        if node.is_writable:
            return
        descriptor = os.open(f"/proc/self/fd/{node.file}", os.O_RDWR | os.O_CLOEXEC)
        os.close(node.file)
        node.descriptor, node.is_writable = descriptor, True

    def set_read_only(self, node: Node, is_read_only: bool) -> None:
        mode = node.stat.st_mode & 0o7777
        os.fchmod(node.file, mode & ~0o222 if is_read_only else mode | WRITABLE)

    # What changes

    def make(self, path: str, is_folder: bool, is_read_only: bool = False) -> Node:
        """Something new, which is held."""
        self._check_room()
        base, colon, stream = path.partition(":")
        if colon:
            return self._make_stream(base, stream)
        made = joined(self.folder_of(path), split(path)[1])
        if is_folder:
            self.disk.make_folder(made)
            descriptor = self.disk.open_folder(made)
        else:
            descriptor = self.disk.make_file(made, is_read_only)
        self._names_changed(made)
        return self._made(Node(made, os.fstat(descriptor), shown=self._shown), descriptor)

    def _make_stream(self, path: str, name: str) -> Node:
        """Its file is made too, where it isn't there."""
        if self.find(path) is None:
            self.release(self.make(path, False))
        base = self.find(path)
        assert base
        stream = self._streams.make(base.identity, name)
        descriptor = self._streams.disk.make_file(stream.place, False)
        return self._made(Node(f"{base.path}:{stream.name}", os.fstat(descriptor), stream.place, self._shown), descriptor)

    def _made(self, node: Node, descriptor: int) -> Node:
        self._begin(node, descriptor, not node.is_folder)
        node.users = 1
        self._shown.made(node.identity)
        return node

    def _names_changed(self, path: str) -> None:
        """In the folder of this path."""
        def folder() -> Identity | None:
            located = self.disk.locate(split(path)[0])
            return (located.stat.st_dev, located.stat.st_ino) if located else None
        self._shown.names_changed(folder)

    def may_remove(self, node: Node) -> bool:
        return node.is_stream or self.disk.may_change(split(node.path)[0])

    def remove(self, node: Node) -> None:
        """A file goes with its streams, those that somebody has open at their last close."""
        disk = self._streams.disk if node.is_stream else self.disk
        disk.remove(node.place, node.identity, node.is_folder)
        if not node.is_stream:
            self._names_changed(node.path)
        self._gone(node)

    def _gone(self, node: Node) -> None:
        self._lose(node)
        if node.stream_place is not None:
            self._streams.forget(node.stream_place)
            return
        for stream in self._streams.of(node.identity):
            self._stream_gone(f"{node.path}:{stream.name}", stream.place)

    def _stream_gone(self, path: str, place: str) -> None:
        held, located = self._held.get(path), self._streams.disk.locate(place)
        if held and held.stream_place == place:
            held.is_deleting = True
        elif located:
            self.remove(Node(path, located.stat, place, self._shown))

    def rename(self, node: Node, path: str, replaced: Node | None = None) -> None:
        """What is in the place of the new name goes by that, and by nothing before; its name may differ in case."""
        new = joined(self.folder_of(path), split(path)[1])
        if replaced:
            self._move(node, replaced.path)
            self._gone(replaced)
        if node.path != new:
            self._move(node, new)

    def _move(self, node: Node, new: str) -> None:
        old = node.path
        self.disk.rename(old, new, node.identity)
        self._names_changed(old)
        self._names_changed(new)
        below = (f"{old}\\", f"{old}:")
        for one in [it for it in self._held.values() if it is node or it.path.startswith(below)]:
            del self._held[one.path]
            one.path = new + one.path[len(old):]
            self._held[one.path] = one
