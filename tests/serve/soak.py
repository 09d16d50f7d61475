"""Clients that write, read and acknowledge for a time, while answers go wrong, connections are cut and damaged frames come: no
byte of an acknowledged write may be lost, and the server's memory stays within a bound."""
from __future__ import annotations

import random
import struct
import threading
import time
import uuid
from collections.abc import Callable
from contextlib import suppress
from dataclasses import dataclass, field
from pathlib import Path

from smblease import CreateAsk, LeaseState, Notification, Status
from smblease.drive.faults import DriveFault
from smblease.drive.headers import HEADER, UNASKED, Command, Message
from smblease.drive.place import Place
from smblease.serve.server_process import ServerProcess
from tests.serve.damage import Damager
from tests.serve.requests import Body, close, create, read, write
from tests.serve.wire_client import Closed, WireClient, file_id

FILES, BLOCKS, BLOCK = 4, 8, 4096
PATIENCE, PAUSE = 2.0, 0.05
WORDS = ["--writable", "--break-timer", "1", "--durable-timer", "3", "--folder"]
FAULTS = ["drop WRITE", "drop READ", "drop CREATE", "drop CLOSE", "drop NOTIFICATION", "delay 0.1 WRITE", "delay 0.1 READ",
          "delay 0.2 NOTIFICATION", "reorder WRITE", "reorder READ", "refuse DISK_FULL WRITE", "refuse ACCESS_DENIED CREATE"]
CUT = 0.1
# How a connection, or the making of one, ends.
LOST = (OSError, Closed, DriveFault, AssertionError)


@dataclass
class Block:
    """What an acknowledged write left there, and what writes may have that weren't answered since."""

    known: bytes = bytes(BLOCK)
    perhaps: list[bytes] = field(default_factory=list)

    def may_be(self, data: bytes) -> bool:
        return data == self.known or data in self.perhaps


class Soaking:
    """One client. It alone writes its blocks of each of the files, which all clients open under leases and oplocks."""

    def __init__(self, place: Place, number: int, seed: int) -> None:
        self._place, self._number, self._random = place, number, random.Random(f"{seed} {number}")
        self.guid = uuid.UUID(int=number + 1).bytes
        self._client: WireClient | None = None
        self.blocks = {(file, place): Block() for file in range(FILES) for place in range(BLOCKS)}
        self.written = self.read = self.breaks = self.cuts = 0
        self.lost: list[str] = []

    def run(self, until: float) -> None:
        while time.monotonic() < until and not self.lost:
            try:
                self._client = self._client or WireClient(self._place, self.guid)
                self._turn(self._random.randrange(FILES))
            except LOST:
                self._cut()
        self._cut()

    def _cut(self) -> None:
        if self._client:
            self.cuts += 1
            with suppress(*LOST):
                self._client.close()
        self._client = None

    def _turn(self, file: int) -> None:
        key = uuid.UUID(bytes=self.guid[:12] + bytes([self._number, file, 0, 0]))
        contexts = CreateAsk(key, LeaseState.of("RWH"), durable=True).write()
        opening = create(f"soaked-{file}", level=0xFF, contexts=contexts)
        message = self._ask(self._random.choice([opening, create(f"soaked-{file}", level=self._random.choice([1, 8, 9]))]))
        if message.status != Status.SUCCESS:
            return
        opened = file_id(message)
        for _ in range(self._random.randrange(1, 8)):
            place = self._random.randrange(BLOCKS)
            (self._write if self._random.random() < 0.6 else self._read)(opened, file, place)
        self._ask(close(opened))

    def _offset(self, place: int) -> int:
        return BLOCK * (BLOCKS * self._number + place)

    def _write(self, opened: int, file: int, place: int) -> None:
        block, data = self.blocks[file, place], struct.pack("<QQ", self._number + 1, self._random.getrandbits(64)) * (BLOCK // 16)
        block.perhaps.append(data)
        if self._ask(write(opened, self._offset(place), data)).status == Status.SUCCESS:
            block.known, block.perhaps = data, []
            self.written += 1
        else:
            # (a write that is refused changes nothing)
            block.perhaps.remove(data)

    def _read(self, opened: int, file: int, place: int) -> None:
        command, body = read(opened, BLOCK)
        message = self._ask((command, body[:8] + self._offset(place).to_bytes(8, "little") + body[16:]))
        data = message.data[80:] if message.status == Status.SUCCESS else b""
        if message.status in (Status.SUCCESS, Status.END_OF_FILE):
            self.read += 1
            self.check(file, place, data)

    def check(self, file: int, place: int, data: bytes) -> None:
        """What is past the end of the file counts as zeros."""
        if not self.blocks[file, place].may_be(data + bytes(BLOCK - len(data))):
            self.lost.append(f"client {self._number}, file {file}, block {place}")

    def check_file(self, file: int, content: bytes) -> None:
        for place in range(BLOCKS):
            self.check(file, place, content[self._offset(place):self._offset(place) + BLOCK])

    def _ask(self, body: Body) -> Message:
        assert self._client
        number = self._client.send(body)
        while True:
            message = self._client.receive(PATIENCE)
            if message.identifier == number and message.status != Status.PENDING:
                return message
            if message.identifier == UNASKED:
                self._acknowledge(self._client, message.data[HEADER:])

    def _acknowledge(self, client: WireClient, notice: bytes) -> None:
        """Now and then not, so that a timer runs out."""
        self.breaks += 1
        if self._random.random() < 0.05:
            return
        if len(notice) == 24:
            client.send((Command.OPLOCK_BREAK, notice))
        else:
            due = Notification.read(notice).acknowledgment()
            if due:
                client.send((Command.OPLOCK_BREAK, due.write()))


@dataclass
class Soaked:
    """What came of it. Memory is the most that was resident, in MiB."""

    written: int
    read: int
    breaks: int
    cuts: int
    faults: int
    damaged: int
    memory: float
    lost: list[str]

    @property
    def text(self) -> str:
        return (f"{self.written} writes acknowledged, {self.read} reads, {self.breaks} breaks, {self.cuts} connections cut, "
                f"{self.faults} faults, {self.damaged} damaged frames, {self.memory:.0f} MiB of memory at most, "
                f"{len(self.lost)} blocks lost")


class _Trouble:
    """Faults on demand, connections that are cut, and damaged frames."""

    def __init__(self, server: ServerProcess, seed: int, guids: list[bytes]) -> None:
        self._server, self._random, self._guids = server, random.Random(seed), guids
        self.faults = self.damaged = 0
        self.complaints: list[str] = []

    def make(self, until: float) -> None:
        while time.monotonic() < until:
            guid = str(uuid.UUID(bytes=self._random.choice(self._guids)))
            self._server.tell(f"disconnect {guid}" if self._random.random() < CUT else f"{self._random.choice(FAULTS)} {guid}")
            self.faults += 1
            time.sleep(PAUSE)

    def send_damaged(self, until: float) -> None:
        damager = Damager(self._server.place, self._random)
        try:
            while time.monotonic() < until:
                damager.send(damager.sent + 20)
        except LOST as fault:
            self.complaints.append(f"who does nothing wrong wasn't served: {fault!r}")
        finally:
            self.damaged = damager.sent
            damager.close()


def memory_of(process: int) -> float:
    """The most that was resident so far, in MiB."""
    status = Path(f"/proc/{process}/status").read_text(encoding="ascii")
    return int(status.partition("VmHWM:")[2].split()[0]) / 1024


def soaked(program: str, folder: Path, clients: int, seconds: float, seed: int) -> Soaked:
    server = ServerProcess(program, words=[*WORDS, str(folder)])
    members = [Soaking(server.place, number, seed) for number in range(clients)]
    trouble = _Trouble(server, seed, [it.guid for it in members])
    until = time.monotonic() + seconds
    works: list[Callable[[float], None]] = [*(it.run for it in members), trouble.make, trouble.send_damaged]
    threads = [threading.Thread(target=work, args=(until,)) for work in works]
    for thread in threads:
        thread.start()
    for thread in threads:
        thread.join()
    memory = memory_of(server.process)
    server.close()
    lost = trouble.complaints
    if (server.status, server.complaints) != (0, ""):
        lost.append(f"the server ended: {server.status} {server.complaints}")
    for file in range(FILES):
        content = (folder / f"soaked-{file}").read_bytes() if (folder / f"soaked-{file}").exists() else b""
        for member in members:
            member.check_file(file, content)
    lost += [it for member in members for it in member.lost]
    return Soaked(sum(it.written for it in members), sum(it.read for it in members), sum(it.breaks for it in members),
                  sum(it.cuts for it in members), trouble.faults, trouble.damaged, memory, lost)
