"""SET_INFO (3.3.5.21): times and attributes, names, deletion, and the end of a file."""
from __future__ import annotations

import os
import struct

from smblease import Status
from smblease.drive.headers import HEADER
from smblease.serve.access import DELETE, WRITE_ATTRIBUTES, writes
from smblease.serve.asks import Handling, Steps
from smblease.serve.kept_attributes import FOLDER, READ_ONLY, TEMPORARY, keep
from smblease.serve.names import folded, path_of, text_of
from smblease.serve.node import Node
from smblease.serve.opens import Open
from smblease.serve.packets import Answer
from smblease.serve.query_info import FILE, SECURITY
from smblease.serve.request import Handlers, Request
from smblease.serve.resizing import resizing
from smblease.serve.security import check_descriptor
from smblease.serve.status_error import StatusError
from smblease.serve.times import on_disk

BASIC, RENAME, DISPOSITION, POSITION, MODE, ALLOCATION, END_OF_FILE = 4, 10, 13, 14, 16, 19, 20
LEAST = {BASIC: 36, RENAME: 20, DISPOSITION: 1, POSITION: 8, MODE: 4, ALLOCATION: 8, END_OF_FILE: 8}
UNCHANGED = [it.to_bytes(8, "little", signed=True) for it in (0, -1, -2)]


def signed(data: bytes) -> int:
    """A number with a sign, which isn't below 0."""
    value = int.from_bytes(data, "little", signed=True)
    if value < 0:
        raise StatusError(Status.INVALID_PARAMETER)
    return value


class SetInfo(Handlers):
    def set(self, request: Request) -> Handling:
        message = request.message
        kind, number, length = message.number(HEADER + 2, 1), message.number(HEADER + 3, 1), message.number(HEADER + 4, 4)
        data = message.buffer(HEADER + 8, length)
        opened = request.open()
        if kind == SECURITY:
            check_descriptor(data, message.number(HEADER + 12, 4), opened.access)
            return Answer(Status.SUCCESS, struct.pack("<H", 2))
        if kind != FILE or number not in LEAST:
            raise StatusError(Status.NOT_SUPPORTED)
        if len(data) < LEAST[number]:
            raise StatusError(Status.INFO_LENGTH_MISMATCH)
        if number == BASIC:
            yield from self._server.folder_leases.changing(request, opened, opened.node.path)
            self._set_basic(opened, data)
        elif number == RENAME:
            yield from self._rename(request, opened, data)
        elif number == DISPOSITION:
            yield from self._dispose(request, opened, bool(data[0]))
        elif number == POSITION:
            opened.position = signed(data[:8])
        elif number in (ALLOCATION, END_OF_FILE):
            yield from self._resize(request, opened, int.from_bytes(data[:8], "little"), number == END_OF_FILE)
        return Answer(Status.SUCCESS, struct.pack("<H", 2))

    def _set_basic(self, opened: Open, data: bytes) -> None:
        """What the disk has no place for is kept first: where that can't be nothing is set. The time of a change is its own."""
        if not opened.access & WRITE_ATTRIBUTES:
            raise StatusError(Status.ACCESS_DENIED)
        node, attributes = opened.node, int.from_bytes(data[32:36], "little")
        times = [None if it in UNCHANGED else signed(it) for it in (data[place:place + 8] for place in range(0, 32, 8))]
        created, accessed, written = times[:3]
        if attributes & (TEMPORARY if node.is_folder else FOLDER):
            raise StatusError(Status.INVALID_PARAMETER)
        keep(node.file, attributes, created)
        if accessed is not None or written is not None:
            found = node.stat
            os.utime(node.file, ns=(found.st_atime_ns if accessed is None else on_disk(accessed),
                                    found.st_mtime_ns if written is None else on_disk(written)))
            node.shown.times_set(node.identity, *(None if it is None else on_disk(it) for it in (accessed, written)))
        if attributes and not node.is_folder:
            self._server.names.set_read_only(node, bool(attributes & READ_ONLY))

    def _rename(self, request: Request, opened: Open, data: bytes) -> Steps:
        """A name is changed once nobody else holds handles of the file (profile, as in MS-FSA 2.1.5.14.11)."""
        if not opened.access & DELETE:
            raise StatusError(Status.ACCESS_DENIED)
        length = int.from_bytes(data[16:20], "little")
        if 20 + length > len(data):
            raise StatusError(Status.INFO_LENGTH_MISMATCH)
        path, node = path_of(text_of(data[20:20 + length])), opened.node
        self._check_new_name(node, path, bool(data[0]))
        yield from self._break_below(request, node)
        yield from self._break_handles(request, opened)
        yield from self._server.folder_leases.changing(request, opened, node.path, path)
        if self._server.names.opened_below(node):
            raise StatusError(Status.ACCESS_DENIED)
        self._server.names.rename(node, path, self._check_new_name(node, path, bool(data[0])))
        self._server.record.start(node)

    def _check_new_name(self, node: Node, path: str, replaces: bool) -> Node | None:
        """The file that goes for the new name. It is looked for anew after every wait."""
        if not path or not node.path or node.is_folder and folded(f"{path}\\").startswith(folded(f"{node.path}\\")):
            raise StatusError(Status.OBJECT_PATH_NOT_FOUND)
        if ":" in path or node.is_stream:
            raise StatusError(Status.NOT_SUPPORTED)
        self._check_folder(self._server.names.folder_of(path))
        target = self._server.names.find(path)
        if target is None or target is node:
            return None
        if not replaces:
            raise StatusError(Status.OBJECT_NAME_COLLISION)
        if target.is_folder or target.opens or target.is_read_only:
            raise StatusError(Status.ACCESS_DENIED)
        return target

    def _check_folder(self, path: str) -> None:
        """The folder of a new name is opened to add to it, which shares no deletion."""
        folder = self._server.names.held_at(path)
        if folder and folder.opens.deleting:
            raise StatusError(Status.SHARING_VIOLATION)

    def _break_below(self, request: Request, folder: Node) -> Steps:
        """A folder isn't renamed while something in it is open (MS-FSA 2.1.4.2, 2.1.5.14.11); who holds handles there gives them
        up first."""
        names = self._server.names
        for node in names.opened_below(folder):
            if not node.opens:
                continue
            names.hold(node)
            try:
                yield from self._server.forced_breaks.break_handles(request, node, None, None)
            finally:
                names.release(node)

    def _break_handles(self, request: Request, opened: Open) -> Steps:
        """Has others give up handles; the open may be closed meanwhile."""
        yield from self._server.forced_breaks.break_handles(request, opened.node, opened.client, opened.key)
        if opened.file_id not in self._server.opens:
            raise StatusError(Status.FILE_CLOSED)

    def _dispose(self, request: Request, opened: Open, deletes: bool) -> Steps:
        node = opened.node
        if not opened.access & DELETE or not node.path:
            raise StatusError(Status.ACCESS_DENIED)
        if deletes:
            self._check_deletable(node)
            yield from self._break_handles(request, opened)
            self._check_deletable(node)
        node.is_deleting = deletes
        if not deletes:
            opened.deletes = False

    def _check_deletable(self, node: Node) -> None:
        if node.is_read_only:
            raise StatusError(Status.CANNOT_DELETE)
        if node.is_folder and self._server.names.has_below(node):
            raise StatusError(Status.DIRECTORY_NOT_EMPTY)
        if not self._server.names.may_remove(node):
            raise StatusError(Status.ACCESS_DENIED)

    def _resize(self, request: Request, opened: Open, size: int, is_end: bool) -> Steps:
        """An allocation of less than there is cuts the file off too; any has all others cache nothing (MS-FSA 2.1.5.14.1)."""
        node, limit = opened.node, self._server.settings.limit
        if opened.client is None or node.is_folder or not writes(opened.access):
            raise StatusError(Status.ACCESS_DENIED)
        if size > limit:
            raise StatusError(Status.INVALID_PARAMETER)
        self._server.leases.break_own_level_ii(opened)
        if not is_end:
            node.allocated = size
        if is_end or size < node.stat.st_size:
            yield from resizing(self._server.record, opened, size)
        else:
            yield from self._server.forced_breaks.break_all(request, opened, lambda: None)
