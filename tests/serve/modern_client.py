"""A client of any dialect that makes each message by itself, and signs and seals by other packages than the server's."""
from __future__ import annotations

import hashlib
import socket

from smblease import Status
from smblease.drive.headers import Message
from smblease.drive.place import Place
from tests.serve import independent
from tests.serve.independent import ENCRYPTED, TRANSFORM
from tests.serve.negotiating import ENCRYPTIONS, SIGNINGS, Algorithm, Asking, Cipher, Guard, chosen
from tests.serve.requests import Body, frame, header, ntlm_tokens, session_setup, tree_connect
from tests.serve.signing_in import proof
from tests.serve.wire_client import SIGNED, WireClient

LONG = (Cipher.AES_256_CCM, Cipher.AES_256_GCM)


class ModernClient(WireClient):  # pylint: disable=too-many-instance-attributes  # keys of both directions
    def __init__(self, place: Place, asking: Asking) -> None:  # pylint: disable=super-init-not-called  # (which logs in by impacket)
        self.place, self.asking, self.guid = place, asking, asking.guid
        self.stream = socket.create_connection((place.host, place.port), 20)
        self.number = self.session = self.tree = 0
        self.breaks: list[Message] = []
        self.guard = Guard.NONE
        # those that its next requests have besides
        self.flags = 0
        # of the message that came last: its bytes as they came
        self.came = b""
        self.key = self.sealing = self.opening = b""
        self.algorithm, self.cipher = Algorithm.AES_CMAC, Cipher.AES_128_CCM
        self.integrity = bytes(64)
        self._nonce = 0
        self.dialect = 0

    def close(self) -> None:
        self.stream.close()

    def negotiate(self, body: Body | None = None) -> Message:
        answer = self._hashed(body or self.asking.body())
        if answer.status == Status.SUCCESS:
            self.dialect = answer.number(68, 2)
            self.cipher = Cipher(chosen(answer, ENCRYPTIONS) or 1)
            algorithm = chosen(answer, SIGNINGS)
            self.algorithm = Algorithm.AES_CMAC if algorithm is None else Algorithm(algorithm)
            if self.dialect < 0x0300:
                self.algorithm = Algorithm.HMAC_SHA256
        return answer

    def log_in(self, name: str, password: str | None = None) -> Message:
        """A session, which is a guest's where there is no password; the last answer."""
        first = self._hashed(session_setup(ntlm_tokens(name)[0]))
        self.session = first.session
        token, key = proof(first, name, password) if password is not None else (ntlm_tokens(name)[1], b"")
        number = self.send(session_setup(token), keeps=True)
        if key:
            self._derive(key)
        return self.answer_to(number)

    def begin(self, name: str, password: str | None = None, guard: Guard = Guard.SIGNED) -> ModernClient:
        """Up to a tree, and on as `guard` says."""
        assert self.negotiate().status == Status.SUCCESS
        assert self.log_in(name, password).status == Status.SUCCESS
        self.guard = guard
        self.connect_tree()
        return self

    def connect_tree(self) -> None:
        answer = self.ask(tree_connect(self.place.share))
        assert answer.status == Status.SUCCESS, hex(answer.status)
        self.tree = answer.tree

    def _hashed(self, body: Body) -> Message:
        answer = self.answer_to(self.send(body, keeps=True))
        self.integrity = hashlib.sha512(self.integrity + answer.data).digest()
        return answer

    def _derive(self, key: bytes) -> None:
        bits = 256 if self.cipher in LONG else 128
        if self.dialect < 0x0300:
            self.key = key
            return
        if self.dialect == 0x0311:
            labels = [(b"SMBSigningKey\0", self.integrity), (b"SMBC2SCipherKey\0", self.integrity),
                      (b"SMBS2CCipherKey\0", self.integrity)]
        else:
            labels = [(b"SMB2AESCMAC\0", b"SmbSign\0"), (b"SMB2AESCCM\0", b"ServerIn \0"), (b"SMB2AESCCM\0", b"ServerOut\0")]
        self.key, self.sealing, self.opening = (independent.derived(key, *it, bits=size)
                                                for it, size in zip(labels, (128, bits, bits)))

    def message(self, body: Body, guard: Guard | None = None, charge: int = 1, number: int | None = None) -> bytes:
        """One request as it goes, under the next number."""
        guard = self.guard if guard is None else guard
        number = self.number if number is None else number
        flags = self.flags | (SIGNED if guard is Guard.SIGNED else 0)
        data = header(body[0], number, self.session, self.tree, flags=flags, charge=charge) + body[1]
        if guard is Guard.SIGNED:
            data = data[:48] + independent.signature(self.algorithm, self.key, data) + data[64:]
        return self.sealed(data) if guard is Guard.SEALED else data

    def sealed(self, data: bytes) -> bytes:
        self._nonce += 1
        return independent.sealed(self.cipher, self.sealing, self.session, self._nonce.to_bytes(11, "big"), data)

    def send(self, body: Body, signs: bool = False, damages: bool = False, charge: int = 1, keeps: bool = False) -> int:
        """`keeps`: its bytes go into the preauthentication integrity hash."""
        data = self.message(body, Guard.SIGNED if signs else None, charge)
        if keeps:
            self.integrity = hashlib.sha512(self.integrity + data).digest()
        self.stream.sendall(frame(data[:-1] + bytes([data[-1] ^ damages])))
        number, self.number = self.number, self.number + max(1, charge)
        return number

    def receive(self, seconds: float = 20.0) -> Message:
        self.stream.settimeout(seconds)
        self.came = self._take(int.from_bytes(self._take(4), "big"))
        if not self.was_sealed:
            return Message(self.came)
        assert TRANSFORM.unpack_from(self.came)[3:] == (len(self.came) - 52, 1, self.session)
        return Message(independent.opened(self.cipher, self.opening, self.came))

    @property
    def was_sealed(self) -> bool:
        return self.came.startswith(ENCRYPTED)

    def is_signed(self, message: Message) -> bool:
        expected = independent.signature(self.algorithm, self.key, message.data)
        return bool(message.flags & SIGNED) and message.part(48, 16) == expected
