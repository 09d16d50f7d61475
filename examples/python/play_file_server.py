#!/usr/bin/env python3
"""Plays a script with the file server of file_server.py, and prints each decision of the manager, what was read, and whether the
files hold in the end what the script says.

    PYTHONPATH=python python3 examples/python/play_file_server.py FOLDER examples/c/file_server/write_waits.txt

A server has the requests from sockets and the timers from a clock. Here both are lines of the script. examples/c/file_server.c
plays the same scripts, and prints the same.
"""
import os
import sys
import uuid

from file_server import FileServer, Request
from smblease import Access, Acknowledgment, CreateAsk, LeaseState, MachineLost, Manager, Rules, Share

LARGEST = (1 << 63) - 1


def key_of(letter: str) -> uuid.UUID:
    return uuid.UUID(bytes=letter.encode("ascii")[:1] + bytes(15))


class Player:
    """The steps of scripts. `holds` is false once a file was found to hold other bytes."""

    def __init__(self, server: FileServer) -> None:
        self.holds = True
        self._server = server
        self._manager = server.manager

    def _begin_file(self, name: str, text: str = "") -> None:
        descriptor = self._server.descriptor_of(name)
        os.truncate(descriptor, 0)
        os.pwrite(descriptor, text.encode("ascii"), 0)
        os.close(descriptor)

    def _look(self, name: str, length: str, offset: str, text: str = "") -> None:
        descriptor = self._server.descriptor_of(name)
        found = os.fstat(descriptor).st_size, os.pread(descriptor, len(text), int(offset))
        os.close(descriptor)
        is_right = found == (int(length), text.encode("ascii"))
        print("holds" if is_right else "wrong", name)
        self.holds = self.holds and is_right

    def _open(self, client: int, tag: int, name: str, uses: tuple[str, str], *lease: str) -> None:
        """What `lease` has is a key, a state, and `durable` or the FileId of an open that is to be connected again."""
        more = lease[2] if len(lease) > 2 else ""
        ask = CreateAsk(key_of(lease[0]), LeaseState.of(lease[1]), more == "durable",
                        int(more) if more.isdigit() else None) if lease else CreateAsk()
        access, share = map(int, uses)
        self._server.waiting[client, tag] = Request("open", name)
        self._server.after(self._manager.create(client, tag, self._server.number_of(name), Access(access), Share(share), ask))

    def _use(self, word: str, client: int, tag: int, file_id: int, *more: str) -> None:
        """A truncation is asked as a write, which has all others give up all that they cache."""
        handle = self._server.handles.get(file_id)
        one = Request(word, handle.file if handle else "", file_id)
        one.offset = int(more[0]) if word in ("read", "write") else 0
        one.text = more[1] if word == "write" else ""
        one.length = len(one.text) if word == "write" else int(more[-1]) if more else 0
        self._server.waiting[client, tag] = one
        if word in ("read", "close"):
            decisions = (self._manager.read if word == "read" else self._manager.close_open)(client, tag, file_id)
        else:
            decisions = self._manager.write(client, tag, file_id, fits=one.offset + one.length <= LARGEST)
        self._server.after(decisions)

    def _acknowledge(self, client: int, *given: str) -> None:
        """An acknowledgment of a key with a state, or one that can't be read."""
        if given:
            decisions = self._manager.acknowledge(client, Acknowledgment(key_of(given[0]), LeaseState.of(given[1])))
        else:
            decisions = self._manager.acknowledge_malformed(client)
        self._server.after(decisions)

    def _of_client(self, word: str, client: int, *rest: str) -> None:
        """A step of a client; the first of `rest` is a tag mostly."""
        if word == "join":
            self._manager.join(client)
        elif word == "cut":
            self._server.cut(client)
        elif word == "ack":
            self._acknowledge(client, *rest)
        elif word == "cancel":
            self._server.cancel(client, int(rest[0]))
        elif word == "open":
            self._open(client, int(rest[0]), rest[1], (rest[2], rest[3]), *rest[4:])
        else:
            self._use(word, client, int(rest[0]), int(rest[1]), *rest[2:])

    def happen(self, word: str, *rest: str) -> None:
        """A step of the script."""
        print("-", word, *rest)
        if word == "file":
            self._begin_file(*rest)
        elif word == "holds":
            self._look(*rest)
        elif word == "break-timer":
            self._server.end_break(int(rest[0]))
        elif word == "open-timer":
            self._server.end_open(int(rest[0]))
        else:
            self._of_client(word, int(rest[0]), *rest[1:])


def main() -> int:
    if len(sys.argv) != 3:
        sys.exit("usage: play_file_server.py FOLDER SCRIPT")
    with open(sys.argv[2], encoding="ascii") as text:
        steps = [it.split() for it in text if it.split() and not it.startswith("#")]
    try:
        player = Player(FileServer(sys.argv[1], Manager(Rules.of("by-key,whole"))))
        for step in steps:
            player.happen(*step)
    except (MachineLost, MemoryError) as fault:
        print(f"play_file_server.py: {fault}", file=sys.stderr)
        return 3
    return 0 if player.holds else 1


if __name__ == "__main__":
    sys.exit(main())
