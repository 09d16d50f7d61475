"""The record: every fact as it happens (docs/FORMATS.md)."""
from __future__ import annotations

import os
from typing import IO

from smblease import Believes, Changed, LeaseState, Opened, Wrote
from smblease.faults import ToolFault
from smblease.lines import digits, note_words, out_words
from smblease.serve.disk_bytes import read_bytes
from smblease.serve.manager_clients import SHELLS
from smblease.serve.node import Node
from smblease.serve.opens import LeaseSeen, ManagerClient
from smblease.values import LARGEST_FILE

# The last number of a client and of a file that a record can have.
LAST = 255


class Record:
    """What can be seen of a client on the wire is among the facts: `wrote` at its request, `took` and `believes` at its
    acknowledgment, `believes` at a grant, at a break that asks for no acknowledgment, and at its last Close. What a record can't
    have is left out, and counted."""

    def __init__(self, path: str | None) -> None:
        self.path = path
        self._stream: IO[str] | None = None
        self.is_kept = bool(path)
        # the files that it has, by their numbers, with what they were called last
        self._files: dict[int, str] = {}
        self._long_files: set[int] = set()
        self._clients = self._writes = 0
        try:
            if path:
                # pylint: disable-next=consider-using-with  # it is closed by `close`
                self._stream = open(path, "w", encoding="utf-8")
        except OSError as fault:
            raise ToolFault(f"{path}: {fault.strerror}") from None

    def fact(self, text: str) -> None:
        if self._stream:
            try:
                self._stream.write(f"{text}\n")
            except OSError as fault:
                raise ToolFault(f"{self.path}: {fault.strerror}") from None

    def remark(self, text: str) -> None:
        self.fact(f"# {''.join(it if it.isprintable() else '?' for it in text)}")

    def _has(self, client: ManagerClient, node: Node | None = None) -> bool:
        return bool(self._stream) and client.number <= LAST and (node is None or node.number in self._files)

    # Files

    def start(self, node: Node) -> None:
        """A file is held, with the bytes that it has when that happens for the first time."""
        if self._stream is None or self._files.get(node.number) == node.path or node.number in self._long_files:
            return
        if node.number not in self._files and (node.number > LAST or os.fstat(node.file).st_size > LARGEST_FILE):
            self._long_files.add(node.number)
            return
        is_new = node.number not in self._files
        self._files[node.number] = node.path
        self.remark(f"file {node.number} is {node.path}")
        if is_new:
            self.fact(f"start {node.number} {digits(read_bytes(node.file, 0, LARGEST_FILE))}")

    def opened(self, client: ManagerClient, node: Node) -> None:
        if self._has(client, node):
            self.fact(out_words(Opened(node.number, client.number)))

    def wrote(self, client: ManagerClient, node: Node, number: int, offset: int,
              data: bytes | memoryview) -> None:
        """A write that is asked for."""
        if self._has(client, node):
            if offset + len(data) <= LARGEST_FILE:
                self.fact(note_words(client.number, Wrote(node.number, number, offset, bytes(data), buffered=False)))
            else:
                self._writes += 1

    def changed(self, client: ManagerClient, node: Node, number: int, offset: int,
                data: bytes | memoryview) -> None:
        """A write that is done."""
        if self._has(client, node) and offset + len(data) <= LARGEST_FILE:
            self.fact(out_words(Changed(node.number, client.number, number, offset, bytes(data))))

    def cut_off(self, node: Node, size: int) -> None:
        """No fact of a record makes a file shorter."""
        if node.number in self._files:
            self.remark(f"file {node.number} ends at {size} from here on")

    # Clients

    def joined(self, client: ManagerClient, who: str) -> None:
        client.sent = client.took = 0
        if self._has(client):
            self.remark(f"client {client.number} is {who}")
            self.fact(f"joined {client.number}")
        elif client.number < SHELLS:
            self._clients += 1

    def strayed(self, client: ManagerClient, why: str) -> None:
        """Nothing is promised to a client from here on: it has one more connection, say."""
        if not client.has_strayed:
            client.has_strayed = True
            if self._has(client):
                self.remark(f"client {client.number} {why}")
                self.fact(f"strayed {client.number}")

    def dropped(self, client: ManagerClient) -> None:
        if self._has(client):
            self.fact(f"dropped {client.number}")
        for lease in list(client.leases.values()):
            self.believes(client, lease, LeaseState.NONE)

    def expired(self, client: ManagerClient, node: Node) -> None:
        if self._has(client, node):
            self.fact(f"expired {client.number} {node.number}")

    def sent(self, client: ManagerClient) -> None:
        if self._has(client):
            self.fact(f"sent {client.number}")

    def took(self, client: ManagerClient, message: int) -> None:
        """The client has taken a message by now, and so each one before it."""
        while client.took < message and not client.has_strayed:
            client.took += 1
            if self._has(client):
                self.fact(f"took {client.number}")

    def believes(self, client: ManagerClient, lease: LeaseSeen, state: LeaseState) -> None:
        """A client believes of a file what all its leases there say."""
        if not self._has(client, lease.node):
            lease.believed = state
            return
        before = self._belief(client, lease)
        lease.believed = state
        after = self._belief(client, lease)
        if before != after:
            self.fact(note_words(client.number, Believes(lease.node.number, after)))

    @staticmethod
    def _belief(client: ManagerClient, lease: LeaseSeen) -> LeaseState:
        state = LeaseState.NONE
        for one in client.leases.values():
            if one.node.number == lease.node.number:
                state |= one.believed
        return state

    # Its end

    def close(self) -> None:
        if self._stream:
            for count, what in ((self._clients, f"clients past number {LAST}"),
                                (len(self._long_files), f"files past number {LAST}, or of more than {LARGEST_FILE} bytes"),
                                (self._writes, f"writes past {LARGEST_FILE} bytes")):
                if count:
                    self.remark(f"left out: {count} {what}")
            self._stream.close()
            self._stream = None
            self.is_kept = False
