"""What is sent for leases and durable opens of version 2, as tshark reads it, which knows nothing of this library."""
from __future__ import annotations

import random
import subprocess
import uuid
from dataclasses import dataclass
from pathlib import Path

from smblease import Access, Manager, Rules, Share, Versions
from smblease.manager_decisions import Breaks, Opened
from tests import needs
from tests.drive.hand_made import Line, Made, create, created, message
from tests.python.version_bytes import PARENT_SET, Lease, chain, durable_request

pytestmark = needs.program("tshark")
COUNT, TIMEOUT = 100, 61_000
BREAK, UNASKED = 18, 0xFFFFFFFFFFFFFFFF
# (tshark 4.0 calls an Epoch so)
FIELDS = ("smb2.lease.lease_key", "smb2.lease.lease_state", "smb2.lease.lease_flags", "smb2.lease.parent_lease_key",
          "smb2.lease.lease_oplock", "smb2.dh2x.timeout")
ANSWERS = "smb2.cmd == 5 && smb2.flags.response == 1 && smb2.lease.lease_key"
NOTICES = "smb2.cmd == 18 && smb2.flags.response == 1"


@dataclass
class Asked:
    lease: Lease
    guid: bytes | None

    def contexts(self) -> bytes:
        durable = [durable_request(self.guid)] if self.guid else []
        return chain([(b"RqLs", self.lease.write()), *durable])

    def answer(self) -> list[str]:
        """What tshark says of its answer: all is granted, and the epoch is the next."""
        key, parent = (str(uuid.UUID(bytes_le=it)) for it in (self.lease.key, self.lease.parent))
        epoch = ((self.lease.epoch or 0) + 1) % 65_536
        return [key, "0x00000007", f"0x{self.lease.flags:08x}", parent, f"0x{epoch:04x}", str(TIMEOUT) if self.guid else ""]


def drawn(chooser: random.Random) -> Asked:
    flags = chooser.choice([0, PARENT_SET])
    parent = chooser.randbytes(16) if flags else bytes(16)
    return Asked(Lease(chooser.randbytes(16), 7, flags, chooser.choice([0, 1, 65_535, chooser.randrange(65_536)]), parent),
                 chooser.choice([chooser.randbytes(16), None]))


def read_by_tshark(capture: Path, which: str, *fields: str) -> list[list[str]]:
    words = ["tshark", "-r", str(capture), "-Y", which, "-T", "fields", *(it for field in fields for it in ("-e", field))]
    done = subprocess.run(words, stdout=subprocess.PIPE, stderr=subprocess.DEVNULL, check=True, text=True)
    return [line.split("\t") for line in done.stdout.splitlines()]


def test_what_is_written(tmp_path: Path, chooser: random.Random) -> None:
    asked = [drawn(chooser) for _ in range(COUNT)]
    made, capture = Made(), tmp_path / "one.pcap"
    line = Line(made, 50001)
    line.begins(1, 0x311)
    with Manager(Rules.of("by-key,whole")) as manager, Versions(manager) as versions:
        manager.join(1)
        manager.join(2)
        for number, one in enumerate(asked, 1):
            ask = versions.asked(1, number, one.contexts()).ask
            assert ask is not None
            opened = manager.create(1, number, number, Access.READ_WRITE, Share.READ_WRITE, ask)
            assert len(opened) == 1 and isinstance(opened[0], Opened)
            line.asks(create(number, f"f{number}", one.contexts()))
            line.answers(created(number, number, versions.follow(0, TIMEOUT)))
            broken = manager.create(2, COUNT + number, number, Access.READ_WRITE, Share.READ_WRITE)
            assert isinstance(broken[0], Breaks)
            line.answers(message(BREAK, versions.follow(0), UNASKED, answers=True))
    capture.write_bytes(made.data())
    assert read_by_tshark(capture, ANSWERS, *FIELDS) == [it.answer() for it in asked]
    notices = read_by_tshark(capture, NOTICES, "smb2.lease.lease_key", "smb2.lease.lease_state")
    assert notices == [[it.answer()[0], "0x00000007,0x00000003"] for it in asked]
