"""Drives a real server through the events of a schedule, and writes down what happened."""
from __future__ import annotations

import logging
import time
import uuid
from dataclasses import replace

import smblease
from smblease.drive.connecting import connected
from smblease.drive.exchange import Exchange
from smblease.drive.expectation import Step
from smblease.drive.faults import DriveFault, Undrivable
from smblease.drive.peers import DrivenPeer
from smblease.drive.place import Server, Timers
from smblease.drive.records import Order, Record, applied, in_order
from smblease.drive.tried import Tried
from smblease.drive.wire_names import WireNames
from smblease.lines import request_words
from smblease.outs import Changed
from smblease.processes import LineClients
from smblease.replies import Created
from smblease.requests import AcknowledgeRequest, CreateRequest, Request, WriteRequest
from smblease.schedules import Event, EventKind, Schedule
from smblease.serve.dialects import name_of
from smblease.values import LARGEST_FILE
from smblease.world import World

LOG = logging.getLogger("drive")
RECONNECT = b"DHnC"


class Driver(World[DrivenPeer]):
    """A run on a real server. The files of the schedule have to be there, as `files_made` makes them."""

    def __init__(self, schedule: Schedule, server: Server, clients: LineClients, known_opens: int = 0) -> None:
        """`known_opens` is how many opens the schedule's raw lines can mean; a higher FileId is that of none."""
        peers = {number: DrivenPeer(guid, loses_kept=not server.is_profiled) for number, guid in enumerate(schedule.clients, 1)}
        self.record = Record()
        super().__init__(schedule, peers, clients, self.record)
        self._contents = dict(enumerate(schedule.files, 1))
        self._known_opens = known_opens
        # the persistent halves of the FileIds that the server gave, in the order of opening
        self._opened: list[int] = []
        self._server = server
        # the clients and files whose breaks ran out in each wait of the last `expire`
        self._waits: tuple[tuple[tuple[int, int], ...], ...] = ()
        self._names = WireNames()
        self._exchange = Exchange(peers, self._names)
        self.record.remark(f"on the wire ClientGuids and lease keys are those here, exclusive or {self._names.mask.hex()}")

    @property
    def tried(self) -> Tried:
        return replace(self._exchange.tried, cached_reads=self.record.count_of("cachedread"))

    def step(self, event: Event, has_applied: bool) -> Step:
        """What became of the last event."""
        is_wait = has_applied and event.kind is EventKind.EXPIRE
        return Step(event, self.record.count, self._waits if is_wait else ())

    def close(self) -> None:
        for peer in self.peers.values():
            if peer.connection and self._server.stays:
                # (its files are removed next, and it may let go of opens only once it has closed the connection too)
                peer.connection.end()
            elif peer.connection:
                peer.connection.close()
            peer.versions.close()

    def _served(self, client: int, request: Request) -> None:
        self.record.remark(f"served {client} {request_words(request)}")
        name = self._server.name_of(request.file) if isinstance(request, CreateRequest) else ""
        self._exchange.send(client, request, name)
        self._settle()

    def _joined(self, client: int) -> None:
        peer = self.peers[client]
        connection = connected(self._server.place, self._names.of(peer.guid.bytes))
        peer.is_connected(connection)
        self.record.remark(f"client {client} speaks dialect {name_of(connection.dialect)}")
        peer.process = self._server.new_process()

    def _dropped(self, client: int) -> None:
        peer = self.peers[client]
        if peer.connection:
            peer.connection.end()
        self._server.wait_for_end(peer.process)
        peer.is_cut()
        self._settle()

    def _expire(self, client: int, file: int) -> bool:
        peer = self.peers[client]
        if file not in peer.breaking:
            return False
        waiting = self._running_out(client, file)
        self._waits = ()
        while waiting:
            self._waits += (tuple(waiting),)
            for other, breaking in waiting:
                self.record.fact(f"expired {other} {breaking}")
                self.peers[other].breaking.pop(breaking)
            guid, key = peer.guid.bytes, peer.key_of(file).bytes
            self._server.begin_break_timer(peer.process, self._names.of(guid), self._names.of(key))
            self._settle()
            # (where all are waited for, breaks that came meanwhile may have run out too)
            waiting = self._running_out(client, file) if self._server.timers is Timers.ALL else []
        self._server.end_break_timer(peer.process)
        return True

    def _check_breaks(self) -> None:
        """Timers that may have run out by themselves make a record of nothing."""
        patience, now = self._server.patience, time.monotonic()
        for client, peer in self.peers.items():
            for came in peer.breaking.values():
                if patience is not None and now - came > patience:
                    raise DriveFault(f"a break of client {client} waits for {now - came:.1f} s, in which its timer may run out")

    def _running_out(self, client: int, file: int) -> list[tuple[int, int]]:
        """The clients and files whose breaks run out with that of this client and file, in the order in which they began."""
        if self._server.timers is Timers.ONE:
            return [(client, file)]
        if self._server.timers is Timers.OF_CONNECTION:
            return [(client, breaking) for breaking in sorted(self.peers[client].breaking)]
        times = {(other, breaking): came for other, peer in self.peers.items() for breaking, came in peer.breaking.items()}
        return sorted(times, key=lambda it: times[it])

    def _scavenge(self, client: int, file: int) -> bool:
        peer = self.peers[client]
        if file not in peer.kept:
            return False
        self._server.pass_durable_timer(sorted(it for it, kept in peer.kept_opens.items() if kept == file))
        if not self._server.is_profiled:
            peer.kept.discard(file)
        self._settle()
        return True

    def _meant(self, request: Request) -> Request:
        """A raw request names opens by the order of opening; the server has FileIds of its own."""
        if isinstance(request, AcknowledgeRequest):
            return request
        if isinstance(request, CreateRequest):
            found = smblease.find_context(request.contexts, RECONNECT)
            if found is None or len(found.data) < 16:
                return request
            real = self._real(int.from_bytes(found.data[:8], "little")).to_bytes(8, "little")
            return replace(request, contexts=smblease.replace_data(request.contexts, RECONNECT, 2 * real))
        end = request.offset + len(request.data) if isinstance(request, WriteRequest) else 0
        if end > LARGEST_FILE and not self._server.is_profiled:
            raise Undrivable("no record can hold a write past the limit of a file")
        return replace(request, file_id=self._real(request.file_id))

    def _real(self, file_id: int) -> int:
        if 1 <= file_id <= len(self._opened):
            return self._opened[file_id - 1]
        if 1 <= file_id <= self._known_opens or file_id in self._opened:
            raise Undrivable(f"no file was opened under FileId {file_id}")
        return file_id

    def _settle(self) -> None:
        """Waits for all that comes of an event, and writes it down."""
        self._check_breaks()
        arrivals = self._exchange.settled()
        for client in self._exchange.passed_over():
            self.record.remark(f"a break that client {client} knows to be old isn't taken")
        self.record.step(arrivals)
        for arrival in in_order(arrivals, Order.BREAKS_FIRST):
            if isinstance(arrival.effect, Changed):
                file = arrival.effect.file
                self._contents[file] = applied(arrival.effect, self._contents[file])
            elif arrival.effect and isinstance(arrival.reply, Created):
                self._opened.append(arrival.reply.file_id)
        for file, content in self._contents.items():
            on_disk = self._server.content(self._server.name_of(file))
            if on_disk is not None and on_disk != content:
                raise DriveFault(f"file {file} on the server's disk isn't what the record says")


def files_made(schedule: Schedule, server: Server) -> None:
    """Makes the files over SMB: smbd refuses durable reconnects to a file that was made on its disk."""
    connection = connected(server.place, uuid.uuid4().bytes)
    for file, data in enumerate(schedule.files, 1):
        connection.make_file(server.name_of(file), data)
    connection.end()
    server.is_prepared()


def files_removed(schedule: Schedule, server: Server) -> None:
    """Removes them again. What can't be removed is reported, and left."""
    try:
        connection = connected(server.place, uuid.uuid4().bytes)
        for file in range(1, len(schedule.files) + 1):
            connection.remove_file(server.name_of(file))
        connection.close()
    except DriveFault as fault:
        LOG.warning("files are left in the share: %s", fault)
