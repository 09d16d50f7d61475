"""CLOSE, FLUSH, READ and WRITE (3.3.5.10 to 3.3.5.13)."""
from __future__ import annotations

import errno
import os
import struct
from collections.abc import Callable
from functools import partial
from typing import NoReturn

from smblease import Manager, Status
from smblease.drive.headers import HEADER
from smblease.manager_decisions import Decisions
from smblease.serve.access import reads, writes
from smblease.serve.asks import Handling, Meanwhile, Waits, refused, to_close, to_read, to_write
from smblease.serve.attributes import attributes_of
from smblease.serve.disk_bytes import LARGEST, read_bytes, write_bytes
from smblease.serve.locking import is_kept_from
from smblease.serve.opens import LEVEL_II, ManagerClient, Open
from smblease.serve.packets import LONGEST_TRANSFER, Answer
from smblease.serve.request import Handlers, Request
from smblease.serve.shown_files import ON_DISK
from smblease.serve.status_error import StatusError

# Of a READ its length, offset and least length, of a WRITE the place of its bytes, length, offset and flags.
READ, WRITE = struct.Struct("<4xLQ16xL"), struct.Struct("<2xHLQ28xL")
READ_DONE, WRITE_DONE, CLOSE_DONE = struct.Struct("<HBBLLL"), struct.Struct("<HHLLHHx"), struct.Struct("<HHL")
NO_ATTRIBUTES = bytes(52)
SUCCESS = Status.SUCCESS
WITH_ATTRIBUTES = 1
WRITE_THROUGH = 1


class Transfers(Handlers):
    def close(self, request: Request) -> Handling:
        opened = request.find() or (yield from self._unknown(request, Manager.close_open))
        node, flags, attributes = opened.node, request.message.data[HEADER + 2] & WITH_ATTRIBUTES, NO_ATTRIBUTES

        def let_go() -> None:
            nonlocal attributes
            if flags:
                attributes = attributes_of(node.shown_stat(), node.kept, node.allocated)
            self._server.forget_open(opened, is_told=True)
        if self._server.folder_leases.has_any:
            yield from self._server.folder_leases.closing(request, opened)
        if opened.client:
            if opened.key:
                self._server.leases.believes_nothing(opened)
            yield to_close(opened.client, node, opened.file_id, let_go)
        else:
            let_go()
        return Answer(SUCCESS, CLOSE_DONE.pack(60, flags, 0) + attributes)

    def flush(self, request: Request) -> Handling:
        """Others are served while the disk writes. Who adds to a folder has the rights of one who writes a file."""
        opened = request.open()
        node = opened.node
        if not writes(opened.access):
            raise StatusError(Status.ACCESS_DENIED)
        yield Meanwhile(partial(_sync_folder if node.is_folder else _sync, os.dup(node.file)))
        return Answer(SUCCESS, struct.pack("<HH", 4, 0))

    def read(self, request: Request) -> Handling:
        length, offset, least = request.message.fields(READ)
        if length > LONGEST_TRANSFER:
            raise StatusError(Status.INVALID_PARAMETER)
        opened = request.find() or (yield from self._unknown(request, Manager.read))
        file, client, start = opened.node, opened.client, min(offset, LARGEST)
        if file.is_folder or client is None or opened.is_lent and not reads(opened.access):
            self._refuse(opened)
        if file.opens.with_locks and is_kept_from(opened, offset, length, is_write=False):
            raise StatusError(Status.FILE_LOCK_CONFLICT)
        data = yield to_read(client, opened, lambda: read_bytes(file.file, start, length))
        if len(data) < (max(1, least) if length else least):
            raise StatusError(Status.END_OF_FILE)
        opened.position = offset + len(data)
        return Answer(SUCCESS, READ_DONE.pack(17, HEADER + 16, 0, len(data), 0, 0), data or b"\0")

    def write(self, request: Request) -> Handling:
        place, length, offset, flags = request.message.fields(WRITE)
        data = request.message.view(place, length)
        if length > LONGEST_TRANSFER:
            raise StatusError(Status.INVALID_PARAMETER)
        fits = offset + length <= self._server.settings.limit
        opened = request.find() or (yield from self._unknown(
            request, lambda manager, client, tag, file_id: manager.write(client, tag, file_id, fits)))
        node, client = opened.node, opened.client
        if node.is_folder or client is None or opened.is_lent and not writes(opened.access):
            self._refuse(opened)
        if node.opens.with_locks and is_kept_from(opened, offset, length, is_write=True):
            raise StatusError(Status.FILE_LOCK_CONFLICT)
        yield to_write(client, node, opened.file_id, self._change(opened, client, offset, data, fits), fits)
        if opened.writes_through or flags & WRITE_THROUGH:
            yield Meanwhile(partial(_sync, os.dup(node.file)))
        opened.position = offset + length
        return Answer(SUCCESS, WRITE_DONE.pack(17, 0, length, 0, 0, 0))

    def _change(self, opened: Open, client: ManagerClient, offset: int, data: memoryview, fits: bool) -> Callable[[], None]:
        """What a write does once it goes on; the record has it from here on."""
        node, record, leases = opened.node, self._server.record, self._server.leases
        client.writes = number = client.writes + 1
        if fits and record.is_kept:
            record.wrote(client, node, number, offset, data)

        def change() -> None:
            if opened.level == LEVEL_II:
                leases.break_own_level_ii(opened)
            if data:
                opened.has_written = True
                write_bytes(node.file, offset, data)
                if node.shown is not ON_DISK:
                    node.shown.changed(node.identity)
            if record.is_kept:
                record.changed(client, node, number, offset, data)
        return change

    @staticmethod
    def _unknown(request: Request, call: Callable[[Manager, int, int, int], Decisions]) -> Waits[Open]:
        """An open that the shell doesn't know is the manager's to refuse."""
        yield from refused(request.client, request.file_id(), call)
        raise StatusError(Status.FILE_CLOSED)

    @staticmethod
    def _refuse(opened: Open) -> NoReturn:
        raise StatusError(Status.INVALID_DEVICE_REQUEST if opened.node.is_folder else Status.ACCESS_DENIED)


def _sync(descriptor: int) -> None:
    try:
        os.fsync(descriptor)
    finally:
        os.close(descriptor)


def _sync_folder(descriptor: int) -> None:
    """There are file systems whose folders can't be synced."""
    try:
        _sync(descriptor)
    except OSError as fault:
        if fault.errno != errno.EINVAL:
            raise
