"""Random schedules in which good clients share files with clients in whose names any requests are sent.

Beside what a good client's applications ask, there are requests of every kind that no machine made: creates with leases under the
own and other clients' keys, with durable opens, reconnects to anybody's FileId, and contexts that are cut or damaged; reads,
writes and closes of any FileId; acknowledgments for any key and state. Contexts are written here by hand, since they are to be
wrong in every way.
"""
from __future__ import annotations

import random

WANTED_STATES = ("R", "RH", "RW", "RWH", "RWH", "RWH", "RWH", "none")
SHARES = ("rw", "rw", "rw", "rw", "rw", "rw", "r", "w", "-")
MOST = 18446744073709551615


def little(number: int, size: int) -> bytes:
    return number.to_bytes(size, "little")


def digits(data: bytes) -> str:
    return data.hex() or "-"


def chain(contexts: list[tuple[bytes, bytes]]) -> bytes:
    """Create contexts by their names and data, each at a multiple of 8 (MS-SMB2 2.2.13.2)."""
    text = b""
    for place, (name, data) in enumerate(contexts, 1):
        part = b"\x10\0" + little(len(name), 2) + bytes(2) + b"\x18\0" + little(len(data), 4) + name.ljust(8, b"\0") + data
        part += bytes(-(len(part) + 4) % 8)
        text += little(0 if place == len(contexts) else len(part) + 4, 4) + part
    return text


class StrayingSchedule:
    """Some of its clients only ever stray, for some only their machines speak, and for some both."""

    def __init__(self, chooser: random.Random) -> None:
        self.chooser = chooser
        self.clients, self.files = chooser.randint(2, 5), chooser.choice((1, 1, 1, 2, 3))
        self.guids = [bytes((17 * (number + 1),)) * 16 for number in range(self.clients)]
        self.straying = set(chooser.sample(range(1, self.clients + 1), chooser.randint(1, self.clients - 1)))
        self.only_straying = {client for client in self.straying if self.happens(0.5)}
        self.opens = 0
        self.lines = [f"file {digits(chooser.randbytes(chooser.randrange(6)))}" for _ in range(self.files)]
        self.lines += [f"client {guid.hex()}" for guid in self.guids] + \
                                          [f"connect {client}" for client in range(1, self.clients + 1)]

    def happens(self, probability: float) -> bool:
        return self.chooser.random() < probability

    def key(self) -> bytes:
        if self.happens(0.1):
            return self.chooser.randbytes(16)
        return self.chooser.choice(self.guids)[:12] + bytes((self.chooser.randint(1, self.files + self.happens(0.1)), 0, 0, 0))

    def state(self) -> bytes:
        more = self.chooser.choice((8, 0x80000000, 0xFFFFFFF8)) if self.happens(0.1) else 0
        return little(self.chooser.randrange(8) | more, 4)

    def file_id(self) -> int:
        return self.chooser.choice((0, MOST, 77)) if self.happens(0.06) else self.chooser.randint(1, max(1, self.opens + 1))

    def reserved(self, size: int) -> bytes:
        """What a reader has to pass over."""
        return self.chooser.choice((bytes(size), self.chooser.randbytes(size)))

    def contexts(self) -> bytes:
        found = []
        if self.happens(0.75):
            found.append((b"RqLs", self.key() + self.state() + self.reserved(12)))
        if self.happens(0.4):
            found.append((b"DHnQ", bytes(16)))
        if self.happens(0.35):
            found.append((b"DHnC", little(self.file_id(), 8) + self.reserved(8)))
        if self.happens(0.1):
            name = self.chooser.choice((b"MxAc", b"", b"RqLS", b"RqLs", b"DHnQ"))
            found.append((name, self.chooser.randbytes(self.chooser.choice((0, 8, 16, 32, 52)))))
        self.chooser.shuffle(found)
        text = chain(found)
        return self.damaged(text) if text and self.happens(0.15) else text

    def damaged(self, text: bytes) -> bytes:
        changed = bytearray(text)
        for _ in range(self.chooser.randint(1, 3)):
            changed[self.chooser.randrange(len(changed))] = self.chooser.choice((0, 1, 8, 255, self.chooser.randrange(256)))
        return bytes(changed[:self.chooser.randint(1, len(changed))] if self.happens(0.4) else changed)

    def patch(self) -> str:
        offset = self.chooser.choice((0, 0, 1, 2, 3, 5) if self.happens(0.95) else (1048575, 1048576, 4294967295))
        return f"{offset} {digits(self.chooser.randbytes(self.chooser.choice((0, 1, 1, 1, 2, 3))))}"

    def stray(self, client: int) -> str:
        """A request that no machine made."""
        kind = self.chooser.choices(("create", "read", "write", "close", "ack"), (5, 1, 3, 2, 4))[0]
        if kind == "create":
            self.opens += 1
            file = self.chooser.randint(1, self.files) if self.happens(0.95) else self.chooser.choice((255, self.files + 1))
            access, share = self.chooser.choice(("r", "w", "rw", "rw")), self.chooser.choice(("-", "r", "w", "rw", "rw", "rw"))
            return f"raw {client} create {file} {access} {share} {digits(self.contexts())}"
        if kind == "write":
            return f"raw {client} write {self.file_id()} {self.chooser.choice((0, 1, 2, 3, MOST))} {self.patch()}"
        if kind == "ack":
            size = self.chooser.choice((36, 36, 36, 36, 36, 36, 36, 44))
            return f"raw {client} ack {(little(size, 8) + self.key() + self.state() + bytes(8)).hex()}"
        return f"raw {client} {kind} {self.file_id()}"

    def ask(self, client: int) -> str:
        """What an application asks of a machine."""
        file = self.chooser.randint(1, self.files)
        kind = self.chooser.choices(("open", "write", "read", "close", "flush"), (5, 6, 6, 2, 1))[0]
        if kind == "write":
            return f"write {client} {file} {self.patch()}"
        if kind != "open":
            return f"{kind} {client} {file}"
        self.opens += 1
        words = (self.chooser.choice(("r", "rw", "rw", "w")), self.chooser.choice(SHARES), self.chooser.choice(WANTED_STATES))
        return f"open {client} {file} {' '.join(words)}" + " durable" * self.happens(0.4)

    def lose(self, client: int) -> list[str]:
        """A timer that runs out, or a connection that is cut."""
        kind = self.chooser.choices(("expire", "scavenge", "cut"), (3, 2, 3))[0]
        if kind != "cut":
            return [f"{kind} {client} {self.chooser.randint(1, self.files)}"]
        return [f"cut {client}", *[f"notice {client}"] * self.happens(0.8), *[f"connect {client}"] * self.happens(0.8)]

    def act(self, client: int) -> list[str]:
        way = self.chooser.random()
        if way < 0.08:
            return self.lose(client)
        if client in self.straying and (client in self.only_straying or way < 0.5):
            return [self.stray(client)]
        if client in self.only_straying:
            return []
        asked = self.ask(client)
        return [asked, *[f"serve {client}", f"take {client}", *[asked] * asked.startswith("read")] * self.happens(0.6)]

    def move(self, client: int) -> list[str]:
        """Messages on their way arrive, of this client or of another one."""
        other = client if self.happens(0.5) else self.chooser.randint(1, self.clients)
        serve, take = f"serve {other}", f"take {other}"
        return self.chooser.choice(([serve], [take], [serve, take]))

    def text(self) -> str:
        end = len(self.lines) + self.chooser.choice((30, 60, 60, 120, 250))
        while len(self.lines) < end:
            client = self.chooser.randint(1, self.clients)
            self.lines += self.act(client)
            for _ in range(self.chooser.randrange(4)):
                self.lines += self.move(client)
        return "\n".join(self.lines) + "\n"


class SecondOpens(StrayingSchedule):
    """Clients whose machines have leases, and in whose names the same files are opened without a key, or under a second one."""

    def __init__(self, chooser: random.Random) -> None:
        super().__init__(chooser)
        self.straying, self.only_straying = set(range(1, self.clients + 1)), set()

    def stray(self, client: int) -> str:
        self.opens += 1
        key = self.guids[client - 1][:12] + bytes((200, 0, 0, self.chooser.randint(1, self.files)))
        leased = chain([(b"RqLs", key + self.state() + bytes(12))])
        return f"raw {client} create {self.chooser.randint(1, self.files)} rw rw {digits(leased if self.happens(0.4) else b'')}"
