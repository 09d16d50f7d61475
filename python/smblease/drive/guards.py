"""What guards the frames of a client's connection: those that set a session up are hashed (3.1.1), and later ones signed or
encrypted, where the session has keys. What comes has to be guarded likewise, else it is a DriveFault."""
from __future__ import annotations

import struct
from typing import Any, Protocol

from smblease.drive import headers
from smblease.drive.faults import DriveFault
from smblease.drive.headers import UNASKED
from smblease.drive.packets import ENCRYPTED, PROTOCOL
from smblease.serve.preauth_integrity import PreauthIntegrity
from smblease.serve.signing import Signer, signed
from smblease.serve.transforms import SessionEncryption, session_of
from smblease.values import Status

IS_SIGNED = 8
FLAGS = struct.Struct("<L")
FLAGS_PLACE = 16


class Guard(Protocol):
    def outgoing(self, data: bytes) -> bytes:
        """A message as it goes out."""

    def incoming(self, frame: bytes) -> bytes:
        """The message that came in a frame."""


class Unguarded:
    """Nobody has a key: a guest's session, or one of dialect 2.1 whose server asks for no signature."""

    def outgoing(self, data: bytes) -> bytes:
        return data

    def incoming(self, frame: bytes) -> bytes:
        return frame


class SettingUp:
    """Before a session is there. The hash is of all messages but the last answer (3.2.5.3)."""

    def __init__(self) -> None:
        self.integrity = PreauthIntegrity()
        self._last = b""

    def outgoing(self, data: bytes) -> bytes:
        for message in filter(None, (self._last, data)):
            self.integrity.add(message)
        return data

    def incoming(self, frame: bytes) -> bytes:
        self._last = frame
        return frame


class Signing:
    """Each message is signed. A server signs neither breaks nor word that a request is pending (3.2.5.1.3)."""

    def __init__(self, signer: Signer) -> None:
        self._signer = signer

    def outgoing(self, data: bytes) -> bytes:
        flags, = FLAGS.unpack_from(data, FLAGS_PLACE)
        return signed(data[:FLAGS_PLACE] + FLAGS.pack(flags | IS_SIGNED) + data[FLAGS_PLACE + FLAGS.size:], self._signer)

    def incoming(self, frame: bytes) -> bytes:
        message = _plain(frame)
        if message.identifier != UNASKED and message.status != Status.PENDING:
            self.check(message)
        return frame

    def check(self, message: headers.Message) -> None:
        if not message.flags & IS_SIGNED:
            raise DriveFault(f"an answer to {message.name} isn't signed")
        if signed(message.data, self._signer) != message.data:
            raise DriveFault(f"the signature of an answer to {message.name} is wrong")


class Sealing:
    """Each message is encrypted. A server may send breaks as they are (smbd does)."""

    def __init__(self, session: int, encryption: SessionEncryption) -> None:
        self._session, self._encryption = session, encryption

    def outgoing(self, data: bytes) -> bytes:
        return self._encryption.sealed(data)

    def incoming(self, frame: bytes) -> bytes:
        if frame[:4] != ENCRYPTED:
            message = _plain(frame)
            if message.identifier != UNASKED:
                raise DriveFault(f"an answer to {message.name} isn't encrypted")
            return frame
        try:
            if session_of(frame) != self._session:
                raise DriveFault("a message is encrypted for another session")
            return _plain(self._encryption.opened(frame)).data
        except headers.Unreadable:
            raise DriveFault("a message can't be decrypted") from None


def _plain(frame: bytes) -> headers.Message:
    if frame[:4] == ENCRYPTED:
        raise DriveFault("a message is encrypted, which nobody asked for")
    if frame[:4] != PROTOCOL:
        raise DriveFault("what came is no message of SMB 2")
    try:
        return headers.Message(frame)
    except headers.Unreadable:
        raise DriveFault("a message is shorter than its header") from None


class Frames:
    """impacket's stream of frames, as its client uses it. `last` is the last message that came."""

    def __init__(self, bare: Any) -> None:
        self.bare = bare
        self.guard: Guard = SettingUp()
        self.last = b""

    def send_packet(self, data: bytes) -> None:
        self.bare.send_packet(self.guard.outgoing(bytes(data)))

    def recv_packet(self, timeout: float) -> Received:
        self.last = self.guard.incoming(bytes(self.bare.recv_packet(timeout).get_trailer()))
        return Received(self.last)

    def get_socket(self) -> Any:
        return self.bare.get_socket()

    def close(self) -> None:
        self.bare.close()


class Received:
    def __init__(self, data: bytes) -> None:
        self._data = data

    def get_trailer(self) -> bytes:
        return self._data
