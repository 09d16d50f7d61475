"""The clients of a schedule as the driver has them: a link, a connection, and what is under way on it."""
from __future__ import annotations

import uuid
from dataclasses import dataclass, field
from typing import TYPE_CHECKING

import smblease
from smblease.drive.received import FileId
from smblease.drive.versions_of_dialect import Versions
from smblease.requests import AcknowledgeRequest, CreateRequest, Request
from smblease.world import Peer

if TYPE_CHECKING:
    from smblease.drive.connections import Connection


@dataclass(frozen=True)
class Unanswered:
    """A request that isn't answered yet, and its place among all that were sent; a CREATE may have this CreateGuid."""

    request: Request
    place: int
    guid: uuid.UUID


@dataclass
class DrivenPeer(Peer):
    """A client with what its connection has shown."""

    versions: Versions = field(default_factory=Versions)
    connection: Connection | None = None
    process: int | None = None
    unanswered: dict[int, Unanswered] = field(default_factory=dict)
    # its opens by the persistent halves of their FileIds
    file_ids: dict[int, FileId] = field(default_factory=dict)
    files: dict[int, int] = field(default_factory=dict)
    # the files of which a break is to be acknowledged, and when it came
    breaking: dict[int, float] = field(default_factory=dict)
    # those of which an open may be kept without a connection
    kept: set[int] = field(default_factory=set)
    # the files of the opens that may be kept, by the persistent halves of their FileIds
    kept_opens: dict[int, int] = field(default_factory=dict)
    # whether its server drops what it left of a file once it opens that file anew, as smbd does
    loses_kept: bool = False

    def key_of(self, file: int) -> uuid.UUID:
        return smblease.lease_key(self.guid, file)

    def file_of(self, key: uuid.UUID) -> int | None:
        file = key.bytes[12]
        return file if key == self.key_of(file) else None

    def file_id_for(self, request: Request) -> FileId:
        """The whole FileId of a request; one that the server never gave has both halves alike."""
        if isinstance(request, (CreateRequest, AcknowledgeRequest)):
            return FileId(0, 0)
        return self.file_ids.get(request.file_id, FileId(request.file_id, request.file_id))

    def is_connected(self, connection: Connection) -> None:
        self.connection = connection
        self.versions.speaks(connection.dialect)

    def is_opened(self, file: int, file_id: FileId) -> None:
        self.file_ids[file_id.persistent] = file_id
        self.files[file_id.persistent] = file
        self.kept_opens.pop(file_id.persistent, None)
        if self.loses_kept:
            self.kept_opens = {it: kept for it, kept in self.kept_opens.items() if kept != file}
        if file not in self.kept_opens.values():
            self.kept.discard(file)

    def is_closed(self, file_id: int) -> None:
        file = self.files.pop(file_id, None)
        self.file_ids.pop(file_id, None)
        self.versions.closed(file_id)
        if file is not None and file not in self.files.values():
            self.breaking.pop(file, None)

    def is_cut(self) -> None:
        """The connection is lost; durable opens may be kept."""
        self.kept |= set(self.files.values())
        self.kept_opens.update(self.files)
        self.connection, self.process = None, None
        self.unanswered.clear()
        self.file_ids.clear()
        self.files.clear()
        self.breaking.clear()
