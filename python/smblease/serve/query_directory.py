"""QUERY_DIRECTORY (3.3.5.18)."""
from __future__ import annotations

import os
import struct

from smblease import Status
from smblease.drive.headers import HEADER
from smblease.serve.attributes import attributes_of
from smblease.serve.kept_attributes import Kept, kept_below
from smblease.serve.names import text_of
from smblease.serve.node import Node
from smblease.serve.opens import Open
from smblease.serve.packets import LONGEST_TRANSFER, Answer
from smblease.serve.request import Handlers, Request
from smblease.serve.status_error import StatusError
from smblease.serve.wildcards import matches

DIRECTORY, FULL, BOTH, NAMES, BOTH_WITH_ID, FULL_WITH_ID = 1, 2, 3, 12, 37, 38
# How many zeros an entry has before its name, and whether it has the file's identifier after them. One of NAMES has neither.
GAPS = {DIRECTORY: (0, False), FULL: (4, False), BOTH: (30, False), BOTH_WITH_ID: (32, True), FULL_WITH_ID: (8, True)}
RESTART, SINGLE, REOPEN = 1, 2, 16
# Names that are still to be listed by the opens of a session, if it has begun several lists.
MOST_LISTED = 1 << 18


def entry(found: os.stat_result, kept: Kept, allocated: int, name: str, kind: int) -> bytes:
    """An entry for a file, with no distance to the next one yet."""
    text = name.encode("utf-16le", errors="replace")
    length = struct.pack("<L", len(text))
    if kind == NAMES:
        return bytes(8) + length + text
    times, (zeros, is_identified) = attributes_of(found, kept, allocated), GAPS[kind]
    # An entry has the length before the allocation.
    head = bytes(8) + times[:32] + times[40:48] + times[32:40] + times[48:] + length
    return head + bytes(zeros) + (struct.pack("<Q", found.st_ino) if is_identified else b"") + text


class QueryDirectory(Handlers):
    def query(self, request: Request) -> Answer:
        message = request.message
        kind, flags, most = message.number(HEADER + 2, 1), message.number(HEADER + 3, 1), message.number(HEADER + 28, 4)
        length = message.number(HEADER + 26, 2)
        pattern = text_of(message.part(message.number(HEADER + 24, 2), length)) if length else "*"
        opened = request.open()
        if not opened.node.is_folder:
            raise StatusError(Status.INVALID_PARAMETER)
        if most > LONGEST_TRANSFER:
            raise StatusError(Status.INVALID_PARAMETER)
        if kind not in GAPS and kind != NAMES:
            raise StatusError(Status.INVALID_INFO_CLASS)
        is_first = opened.listing is None or bool(flags & (RESTART | REOPEN))
        if is_first or opened.listing is None:
            opened.listing = None
            opened.listing = self._begun(opened, pattern)
        entries = self._entries(opened.node, opened.listing, kind, most, bool(flags & SINGLE))
        if not entries:
            raise StatusError(Status.NO_SUCH_FILE if is_first else Status.NO_MORE_FILES)
        return Answer(Status.SUCCESS, struct.pack("<HHL", 9, HEADER + 8, len(entries)) + entries)

    def _begun(self, opened: Open, pattern: str) -> list[str]:
        """A list of any length, unless the session has begun others."""
        found = self._matching(opened, pattern)
        others = sum(len(it.listing) for it in self._server.opens.values() if it.session is opened.session and it.listing)
        if others and others + len(found) > MOST_LISTED:
            raise StatusError(Status.INSUFFICIENT_RESOURCES)
        return found

    def _matching(self, opened: Open, pattern: str) -> list[str]:
        """The names that are to be listed, the last one first."""
        dots = [".", ".."] if matches(pattern, ".") else []
        return [*dots, *(it for it in self._server.names.names_below(opened.node) if matches(pattern, it))][::-1]

    def _entry(self, folder: Node, name: str, kind: int) -> bytes | None:
        """What has gone meanwhile, and what isn't served, has none."""
        if name in (".", ".."):
            return entry(folder.stat, folder.kept, 0, name, kind)
        held = self._server.names.held(folder, name)
        if held:
            return entry(held.stat, held.kept, held.allocated, name, kind)
        found = self._server.names.stat_below(folder, name)
        return entry(found, kept_below(folder.file, name), 0, name, kind) if found else None

    def _entries(self, folder: Node, listing: list[str], kind: int, most: int, is_single: bool) -> bytes:
        """As many entries as fit, each at a multiple of eight."""
        entries, before = bytearray(), 0
        while listing and not (is_single and entries):
            one = self._entry(folder, listing[-1], kind)
            if one is not None:
                start = -(-len(entries) // 8) * 8
                if start + len(one) > most:
                    break
                if entries:
                    entries[before:before + 4] = struct.pack("<L", start - before)
                    entries += bytes(start - len(entries))
                    before = start
                entries += one
            listing.pop()
        if listing and not entries:
            raise StatusError(Status.INFO_LENGTH_MISMATCH)
        return bytes(entries)
