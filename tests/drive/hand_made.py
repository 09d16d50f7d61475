"""Captures that are made by hand, packet by packet: TCP connections on loopback, and SMB2 messages on them."""
from __future__ import annotations

import struct
from collections.abc import Sequence

SERVER = 445
PENDING = 0x103
REFUSED = 0xC0000001
RELATED = 4
PREVIOUS = b"\xff" * 16
R, H, W = 1, 2, 4
# the most bytes of a packet's payload
LONGEST = 60000
PUSH, FIN = 0x18, 0x11


def file_id(number: int) -> bytes:
    return struct.pack("<QQ", number, number)


def message(command: int, body: bytes, identifier: int = 1, status: int = 0, answers: bool = False, related: bool = False,
            tree: int = 5) -> bytes:
    flags = (1 if answers else 0) | (RELATED if related else 0)
    head = struct.pack("<HHLHHLLQLLQ", 64, 0, status, command, 1, flags, 0, identifier, 0, tree, 9)
    return b"\xfeSMB" + head + bytes(16) + body


def compound(messages: list[bytes]) -> bytes:
    """Messages in one: each but the last is padded to a multiple of 8, and says where the next begins."""
    text = b""
    for one in messages[:-1]:
        padded = one + bytes(-len(one) % 8)
        text += padded[:20] + struct.pack("<L", len(padded)) + padded[24:]
    return text + messages[-1]


def lease(key: int, state: int, flags: int = 0, epoch: int | None = None) -> bytes:
    """The context RqLs (docs/FORMATS.md, "Canonical text"); where it has an epoch it is of version 2 (2.2.13.2.10)."""
    data = bytes([key] * 16) + struct.pack("<LLQ", state, flags, 0)
    if epoch is not None:
        data += bytes(16) + struct.pack("<HH", epoch, 0)
    return struct.pack("<LHHHHL", 0, 16, 4, 0, 24, len(data)) + b"RqLs" + bytes(4) + data


def context(name: bytes, data: bytes) -> bytes:
    """A create context (2.2.13.2)."""
    place = 16 + len(name) + -len(name) % 8
    return struct.pack("<LHHHHL", 0, 16, len(name), 0, place, len(data)) + name + bytes(-len(name) % 8) + data


def on_disk(file: int, volume: int = 1) -> bytes:
    """The context QFid of a response (2.2.14.2.9)."""
    return context(b"QFid", struct.pack("<QQ", file, volume) + bytes(16))


def application(number: int) -> bytes:
    """SMB2_CREATE_APP_INSTANCE_ID (2.2.13.2.13)."""
    return context(bytes.fromhex("45bca66aefa7f74a9008fa462e144d74"), struct.pack("<HH", 20, 0) + bytes([number] * 16))


def chain(*contexts: bytes) -> bytes:
    """Contexts one after the other: each but the last is padded to a multiple of 8, and says where the next begins."""
    padded = [one + bytes(-len(one) % 8) for one in contexts[:-1]]
    return b"".join(struct.pack("<L", len(one)) + one[4:] for one in padded) + b"".join(contexts[-1:])


def negotiate(guid: int) -> bytes:
    return message(0, struct.pack("<HHHHL", 36, 1, 1, 0, 0) + bytes([guid] * 16) + bytes(8) + struct.pack("<H", 0x210), 0)


def negotiated(dialect: int = 0x210, server: int = 0) -> bytes:
    return message(0, struct.pack("<HHHH", 65, 1, dialect, 0) + bytes([server] * 16) + bytes(40), 0, answers=True)


def session_setup(session: int, binds: bool = False) -> bytes:
    body = struct.pack("<HBBLLHHQ", 25, int(binds), 1, 0, 0, 88, 0, 0)
    return of_session(message(1, body, 1), session)


def session_set_up(session: int) -> bytes:
    return of_session(message(1, struct.pack("<HHHH", 9, 0, 72, 0), 1, answers=True), session)


def of_session(one: bytes, session: int) -> bytes:
    """A message with this SessionId."""
    return one[:40] + struct.pack("<Q", session) + one[48:]


def tree_path(share: str) -> str:
    return f"\\\\127.0.0.1\\{share}"


def tree_connect(path: bytes = tree_path("share").encode("utf-16le")) -> bytes:
    return message(3, struct.pack("<HHHH", 9, 0, 72, len(path)) + path, 2, tree=0)


def tree_connected() -> bytes:
    return message(3, struct.pack("<HBBLLL", 16, 1, 0, 0, 0, 0), 2, answers=True)


def create(identifier: int, name: str | bytes, contexts: bytes = b"") -> bytes:
    text = name.encode("utf-16le") if isinstance(name, str) else name
    place = 120 + len(text) + -len(text) % 8
    fixed = struct.pack("<HBBLQQLLLLLHHLL", 57, 0, 255 if contexts else 0, 2, 0, 0, 3, 0, 7, 1, 0x40, 120, len(text),
                        place if contexts else 0, len(contexts))
    return message(5, fixed + text + bytes(-len(text) % 8) + contexts, identifier)


def created(identifier: int, number: int, contexts: bytes = b"", action: int = 1, length: int = 3, made_at: int = 0) -> bytes:
    fixed = struct.pack("<HBBLQ", 89, 255 if contexts else 0, 0, action, made_at) + bytes(32)
    fixed += struct.pack("<QLL", length, 0x20, 0)
    fixed += file_id(number) + struct.pack("<LL", 152 if contexts else 0, len(contexts))
    return message(5, fixed + contexts, identifier, answers=True)


def pending(identifier: int, command: int) -> bytes:
    return message(command, struct.pack("<HHLB", 9, 0, 0, 0), identifier, PENDING, True)


def close(identifier: int, open_id: bytes, related: bool = False) -> bytes:
    return message(6, struct.pack("<HHL", 24, 0, 0) + open_id, identifier, related=related)


def closed(identifier: int) -> bytes:
    return message(6, struct.pack("<H", 60) + bytes(58), identifier, answers=True)


def query(identifier: int, open_id: bytes, related: bool = False) -> bytes:
    """QUERY_INFO of FileStandardInformation (2.2.37)."""
    return message(16, struct.pack("<HBBLHHLLL", 41, 1, 5, 24, 0, 0, 0, 0, 0) + open_id, identifier, related=related)


def queried(identifier: int) -> bytes:
    return message(16, struct.pack("<HHL", 9, 72, 24) + bytes(24), identifier, answers=True)


def read(identifier: int, number: int, length: int = 65536) -> bytes:
    return message(8, struct.pack("<HBBLQ", 49, 0x50, 0, length, 0) + file_id(number) + bytes(17), identifier)


def read_done(identifier: int, data: bytes) -> bytes:
    return message(8, struct.pack("<HBBLLL", 17, 80, 0, len(data), 0, 0) + data, identifier, answers=True)


def write(identifier: int, number: int, offset: int, data: bytes) -> bytes:
    return message(9, struct.pack("<HHLQ", 49, 112, len(data), offset) + file_id(number) + bytes(16) + data, identifier)


def write_done(identifier: int, count: int) -> bytes:
    return message(9, struct.pack("<HHLLL", 17, 0, count, 0, 0), identifier, answers=True)


def rename(identifier: int, number: int, name: str) -> bytes:
    text = name.encode("utf-16le")
    target = struct.pack("<BxxxxxxxQL", 0, 0, len(text)) + text
    return message(17, struct.pack("<HBBLHHL", 33, 1, 10, len(target), 96, 0, 0) + file_id(number) + target, identifier)


def renamed(identifier: int) -> bytes:
    return message(17, struct.pack("<H", 2), identifier, answers=True)


def notification(key: int, held: int, left: int, flags: int = 1, epoch: int = 0) -> bytes:
    body = struct.pack("<HHL", 44, epoch, flags) + bytes([key] * 16) + struct.pack("<LLLLL", held, left, 0, 0, 0)
    return message(18, body, 0xFFFFFFFFFFFFFFFF, answers=True)


def acknowledgment(identifier: int, key: int, state: int) -> bytes:
    return message(18, struct.pack("<HHL", 36, 0, 0) + bytes([key] * 16) + struct.pack("<LQ", state, 0), identifier)


def echo(identifier: int) -> bytes:
    return message(13, struct.pack("<HH", 4, 0), identifier)


def echoed(identifier: int) -> bytes:
    return message(13, struct.pack("<HH", 4, 0), identifier, answers=True)


def refused(command: int, identifier: int, status: int) -> bytes:
    return message(command, struct.pack("<HHLB", 9, 0, 0, 0), identifier, status, True)


def acknowledged(identifier: int, key: int, state: int, status: int = 0) -> bytes:
    body = struct.pack("<HHL", 36, 0, 0) + bytes([key] * 16) + struct.pack("<LQ", state, 0)
    return message(18, body if not status else struct.pack("<HHLB", 9, 0, 0, 0), identifier, status, True)


class Made:
    """A capture. Packets are numbered from 1, and a hundredth of a second apart."""

    def __init__(self) -> None:
        self._packets: list[bytes] = []
        self._whole: list[int] = []

    def packet(self, ports: tuple[int, int], sequence: int, acknowledged: int, flags: int, payload: bytes = b"",
               kept: int | None = None, host: int = 1) -> int:
        """A packet between two ports; that of the server, below those of clients, is at the address 127.0.0.`host`."""
        tcp = struct.pack(">HHLLBBHHH", *ports, sequence, acknowledged, 5 << 4, flags, 65535, 0, 0) + payload
        addresses = [bytes([127, 0, 0, host if port == min(ports) else 1]) for port in ports]
        identifier = len(self._packets) & 0xFFFF
        header = struct.pack(">BBHHHBBH", 0x45, 0, 20 + len(tcp), identifier, 0, 64, 6, 0)
        datagram = header + b"".join(addresses) + tcp
        self._whole.append(len(datagram))
        self._packets.append(datagram[:kept] if kept else datagram)
        return len(self._packets)

    def data(self, snaplen: int | None = None, order: Sequence[int] | None = None) -> bytes:
        """The file; of each packet so many bytes are kept, and the packets stand in this order, or in that of their numbers."""
        head = struct.pack("<LHHlLLL", 0xA1B2C3D4, 2, 4, 0, 0, 262144, 101)
        return head + b"".join(self._record(number, snaplen) for number in order or self.numbers)

    @property
    def numbers(self) -> range:
        return range(1, len(self._packets) + 1)

    @property
    def lengths(self) -> list[int]:
        """How long the packets were."""
        return self._whole

    def _record(self, number: int, snaplen: int | None) -> bytes:
        packet, whole = self._packets[number - 1][:snaplen], self._whole[number - 1]
        seconds, hundredths = divmod(number, 100)
        return struct.pack("<LLLL", 1000 + seconds, hundredths * 10000, len(packet), whole) + packet


class Line:
    """A TCP connection of a client, by its port; both ends have sent what is in `sent`."""

    def __init__(self, made: Made, port: int, begins: bool = True, host: int = 1, server: int = SERVER,
                 longest: int = LONGEST) -> None:
        self._made, self._port, self._server, self._host, self._longest = made, port, server, host, longest
        self.sent = {True: 1, False: 1}
        if begins:
            made.packet((port, server), 0, 0, 2, host=host)
            made.packet((server, port), 0, 1, 0x12, host=host)

    def asks(self, *messages: bytes, had: int | None = None) -> int:
        """The client sends messages; `had` is what its host had of the server's bytes, all that was sent unless this is given."""
        return self._goes(True, messages, had)

    def answers(self, *messages: bytes) -> int:
        return self._goes(False, messages, None)

    def ends(self, had: int | None = None) -> int:
        return self._made.packet((self._port, self._server), self.sent[True], had or self.sent[False], FIN, host=self._host)

    def cut(self, kept: int, one: bytes) -> int:
        """A message of the client of which the capture has so many bytes of the packet only."""
        payload = struct.pack(">L", len(one)) + one
        sequence = self.sent[True]
        self.sent[True] += len(payload)
        return self._made.packet((self._port, self._server), sequence, self.sent[False], PUSH, payload, kept, self._host)

    def misses(self, length: int) -> None:
        """Bytes of the client that aren't in the capture."""
        self.sent[True] += length

    def _goes(self, by_client: bool, messages: tuple[bytes, ...], had: int | None) -> int:
        payload = b"".join(struct.pack(">L", len(one)) + one for one in messages)
        ports = (self._port, self._server) if by_client else (self._server, self._port)
        packet = 0
        for start in range(0, len(payload), self._longest):
            part = payload[start:start + self._longest]
            packet = self._made.packet(ports, self.sent[by_client], had or self.sent[not by_client], PUSH, part, host=self._host)
            self.sent[by_client] += len(part)
        return packet

    def begins(self, guid: int, dialect: int = 0x210, server: int = 0, path: str = tree_path("share")) -> None:
        self.asks(negotiate(guid))
        self.answers(negotiated(dialect, server))
        self.asks(tree_connect(path.encode("utf-16le")))
        self.answers(tree_connected())

    def opens(self, identifier: int, number: int, key: int, state: int, asked: int | None = None, name: str = "f",
              epoch: int | None = None) -> int:
        """Opens a file with a lease, and reads it, so that the grant is known to be taken; the packet of the grant."""
        self.asks(create(identifier, name, lease(key, state if asked is None else asked, epoch=epoch)))
        packet = self.answers(created(identifier, number, lease(key, state, epoch=epoch)))
        self.asks(read(identifier + 1, number))
        self.answers(read_done(identifier + 1, b"abc"))
        return packet
