"""QUERY_INFO (3.3.5.20), as far as clients need it. IOCTL and CHANGE_NOTIFY are refused."""
from __future__ import annotations

import os
import struct
from collections.abc import Callable

from smblease import Status
from smblease.drive.headers import HEADER
from smblease.serve.attributes import attributes_of, size_of
from smblease.serve.node import Node, allocation, attributes_in
from smblease.serve.opens import Open
from smblease.serve.packets import Answer
from smblease.serve.request import Handlers, Request
from smblease.serve.security import DESCRIPTOR
from smblease.serve.status_error import StatusError

FILE, FILESYSTEM, SECURITY = 1, 2, 3
SECTOR = 512
# FSCTL_CREATE_OR_GET_OBJECT_ID, and those that are about no file (2.2.31)
OBJECT_ID, WITHOUT_FILE = 0x900C0, {0x60194, 0x601B0, 0x110018, 0x1401FC, 0x140204}
LABEL = "leasecheck".encode("utf-16le")
SYSTEM = "NTFS".encode("utf-16le")
SERIAL = 0x1EA5E


def attributes(node: Node) -> bytes:
    return attributes_of(node.stat, node.kept, node.allocated)


def basic(node: Node) -> bytes:
    return attributes(node)[:32] + struct.pack("<LL", attributes_in(node.stat, node.kept), 0)


def standard(node: Node) -> bytes:
    found = node.stat
    return struct.pack("<QQLBBH", allocation(found, node.allocated), size_of(found), 0 if node.is_deleting else 1,
                       node.is_deleting, node.is_folder, 0)


def named(text: str) -> bytes:
    name = text.encode("utf-16le", errors="replace")
    return struct.pack("<L", len(name)) + name


def everything(opened: Open) -> bytes:
    node = opened.node
    return (basic(node) + standard(node) + struct.pack("<QLLQLL", node.stat.st_ino, 0, opened.access, opened.position, 0, 0)
            + named("\\" + node.path))


def stream(node: Node) -> bytes:
    if node.is_folder:
        return b""
    name, found = "::$DATA".encode("utf-16le"), node.stat
    return struct.pack("<LLQQ", 0, len(name), found.st_size, allocation(found, node.allocated)) + name


FILE_CLASSES: dict[int, Callable[[Open], bytes]] = {
    4: lambda it: basic(it.node), 5: lambda it: standard(it.node), 6: lambda it: struct.pack("<Q", it.node.stat.st_ino),
    7: lambda it: bytes(4), 8: lambda it: struct.pack("<L", it.access), 14: lambda it: struct.pack("<Q", it.position),
    16: lambda it: bytes(4), 17: lambda it: bytes(4), 18: everything, 21: lambda it: named(it.node.name),
    22: lambda it: stream(it.node), 28: lambda it: bytes(16), 34: lambda it: attributes(it.node) + bytes(4),
    35: lambda it: struct.pack("<LL", attributes_in(it.node.stat, it.node.kept), 0), 48: lambda it: named(it.node.path),
}
FILESYSTEM_CLASSES: dict[int, Callable[[os.statvfs_result], bytes]] = {
    1: lambda _: struct.pack("<QLLBB", 0, SERIAL, len(LABEL), 0, 0) + LABEL,
    3: lambda it: struct.pack("<QQLL", it.f_blocks, it.f_bavail, max(1, it.f_frsize // SECTOR), SECTOR),
    4: lambda _: struct.pack("<LL", 7, 0x20), 5: lambda _: struct.pack("<LLL", 0x3, 255, len(SYSTEM)) + SYSTEM,
    7: lambda it: struct.pack("<QQQLL", it.f_blocks, it.f_bavail, it.f_bfree, max(1, it.f_frsize // SECTOR), SECTOR),
    11: lambda _: struct.pack("<LLLLLLL", SECTOR, SECTOR, SECTOR, SECTOR, 0, 0, 0),
}


class QueryInfo(Handlers):
    def query(self, request: Request) -> Answer:
        message = request.message
        kind, number, most = message.number(HEADER + 2, 1), message.number(HEADER + 3, 1), message.number(HEADER + 4, 4)
        opened = request.open()
        information = self._information(opened, kind, number)
        if kind == SECURITY and most < len(information):
            raise StatusError(Status.BUFFER_TOO_SMALL)
        status = Status.BUFFER_OVERFLOW if most < len(information) else Status.SUCCESS
        information = information[:most]
        return Answer(status, struct.pack("<HHL", 9, HEADER + 8, len(information)) + (information or b"\0"))

    def _information(self, opened: Open, kind: int, number: int) -> bytes:
        if kind == FILE and number in FILE_CLASSES:
            return FILE_CLASSES[number](opened)
        if kind == FILESYSTEM and number in FILESYSTEM_CLASSES:
            return FILESYSTEM_CLASSES[number](self._server.names.disk.space())
        if kind == SECURITY:
            return DESCRIPTOR
        raise StatusError(Status.INVALID_INFO_CLASS if kind in (FILE, FILESYSTEM) else Status.NOT_SUPPORTED)

    @staticmethod
    def control(request: Request) -> Answer:
        """IOCTL (3.3.5.15): of a file its object's identifier alone (MS-FSCC 2.3.1)."""
        message = request.message
        code, most = message.number(HEADER + 4, 4), message.number(HEADER + 44, 4)
        if code in WITHOUT_FILE:
            raise StatusError(Status.INVALID_DEVICE_REQUEST)
        found = request.open().node.stat
        if code != OBJECT_ID:
            raise StatusError(Status.INVALID_DEVICE_REQUEST)
        if most < 64:
            raise StatusError(Status.BUFFER_TOO_SMALL)
        number = struct.pack("<QQ", found.st_ino, found.st_dev)
        volume = struct.pack("<QQ", SERIAL, found.st_dev)
        head = struct.pack("<HHL16sLLLLLL", 49, 0, code, message.part(HEADER + 8, 16), HEADER + 48, 0, HEADER + 48, 64, 0, 0)
        return Answer(Status.SUCCESS, head + number + volume + number + bytes(16))

    @staticmethod
    def notify(request: Request) -> Answer:
        raise StatusError(Status.NOT_SUPPORTED)
