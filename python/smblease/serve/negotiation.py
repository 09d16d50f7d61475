"""NEGOTIATE (3.3.5.3, 3.3.5.4): what a connection speaks from then on."""
from __future__ import annotations

import struct
from dataclasses import dataclass
from typing import TYPE_CHECKING

from smblease import Status
from smblease.drive.headers import HEADER, Unreadable
from smblease.serve.dialects import Dialect
from smblease.serve.negotiate_contexts import Chosen, Cipher, SigningAlgorithm, answered, choose
from smblease.serve.packets import CREDIT_BYTES, LONGEST_TRANSFER, Answer, RequestMessage
from smblease.serve.preauth_integrity import PreauthIntegrity
from smblease.serve.request import Handlers, Request
from smblease.serve.spnego import offered
from smblease.serve.status_error import StatusError

if TYPE_CHECKING:
    from smblease.serve.server import Server

ANY_DIALECT = 0x02FF
SIGNING_ENABLED, SIGNING_REQUIRED = 1, 2
LEASING, LARGE_MTU, DIRECTORY_LEASING, ENCRYPTION = 2, 4, 0x20, 0x40
# Where an answer's token is.
BUFFER = HEADER + 64
SALT = 32
NO_GUID = bytes(16)
OLD_NEGOTIATE = 0x72
# Names of dialects in a NEGOTIATE of SMB 1.
NAMED_ANY, NAMED_2_0_2 = b"\x02SMB 2.???\0", b"\x02SMB 2.002\0"
NOTHING_CHOSEN = Chosen(False, None, None)


@dataclass(frozen=True)
class Asked:
    """What a NEGOTIATE says of its client (2.2.3)."""

    mode: int
    capabilities: int
    guid: bytes
    dialects: tuple[int, ...]


@dataclass(frozen=True)
class Terms:
    """What a connection has agreed on."""

    dialect: Dialect
    asked: Asked
    mode: int
    capabilities: int
    cipher: Cipher | None
    algorithm: SigningAlgorithm
    # of 3.1.1 alone
    integrity: PreauthIntegrity | None


def read_asked(message: RequestMessage) -> Asked:
    count = message.number(HEADER + 2, 2)
    dialects = struct.unpack(f"<{count}H", message.part(HEADER + 36, 2 * count))
    return Asked(message.number(HEADER + 4, 2), message.number(HEADER + 8, 4), message.part(HEADER + 12, 16), dialects)


def mode_of(server: Server) -> int:
    needs_signing = server.settings.user and not server.settings.has_guests
    return SIGNING_ENABLED | (SIGNING_REQUIRED if needs_signing else 0)


def capabilities_of(dialect: int, asked: int = 0) -> int:
    """Of what a client says that it has: leases of folders at dialects of 3, and encryption at 3.0 and 3.0.2 alone (3.3.5.4)."""
    if dialect == Dialect.SMB_2_0_2:
        return 0
    of_3 = DIRECTORY_LEASING if dialect >= Dialect.SMB_3_0 else 0
    by_flag = ENCRYPTION if dialect in (Dialect.SMB_3_0, Dialect.SMB_3_0_2) else 0
    return LEASING | LARGE_MTU | asked & (of_3 | by_flag)


def agreed(server: Server, asked: Asked, dialect: Dialect, chosen: Chosen) -> Terms:
    capabilities = capabilities_of(dialect, asked.capabilities)
    cipher = Cipher.AES_128_CCM if capabilities & ENCRYPTION else chosen.cipher
    algorithm = SigningAlgorithm.AES_CMAC if chosen.algorithm is None else chosen.algorithm
    integrity = PreauthIntegrity() if dialect is Dialect.SMB_3_1_1 else None
    return Terms(dialect, asked, mode_of(server), capabilities, cipher, algorithm, integrity)


def negotiated(server: Server, dialect: int, capabilities: int, contexts: tuple[int, bytes] = (0, b"")) -> Answer:
    """The answer (2.2.4), with its contexts behind the token."""
    token, (count, text) = offered(), contexts
    padding = bytes(-len(token) % 8) if count else b""
    most = CREDIT_BYTES if dialect == Dialect.SMB_2_0_2 else LONGEST_TRANSFER
    fixed = struct.pack("<HHHH16sLLLLQQHHL", 65, mode_of(server), dialect, count, server.guid, capabilities, most, most, most,
                        server.settings.chance.now(), 0, BUFFER, len(token), BUFFER + len(token + padding) if count else 0)
    return Answer(Status.SUCCESS, fixed + token + padding + text)


def negotiated_by_name(server: Server, frame: bytes) -> tuple[Terms | None, Answer]:
    """The NEGOTIATE of SMB 1 that names SMB 2 among its dialects (3.3.5.3). By `SMB 2.002` 2.0.2 is agreed on; after
    `SMB 2.???` the client says more."""
    dialects = server.settings.dialects
    if frame[4:5] == bytes([OLD_NEGOTIATE]):
        if NAMED_ANY in frame and dialects.most > Dialect.SMB_2_0_2:
            return None, negotiated(server, ANY_DIALECT, LEASING | LARGE_MTU)
        if NAMED_2_0_2 in frame and dialects.least is Dialect.SMB_2_0_2:
            asked = Asked(SIGNING_ENABLED, 0, NO_GUID, (Dialect.SMB_2_0_2,))
            return agreed(server, asked, Dialect.SMB_2_0_2, NOTHING_CHOSEN), negotiated(server, Dialect.SMB_2_0_2, 0)
    raise Unreadable


class Negotiation(Handlers):
    def negotiate(self, request: Request) -> Answer:
        message, connection, server = request.message, request.connection, self._server
        if connection.terms:
            raise StatusError(Status.INVALID_PARAMETER)
        asked = read_asked(message)
        if not asked.dialects:
            raise StatusError(Status.INVALID_PARAMETER)
        dialect = server.settings.dialects.common(asked.dialects)
        if dialect is None:
            raise StatusError(Status.NOT_SUPPORTED)
        is_of_3_1_1 = dialect is Dialect.SMB_3_1_1
        chosen = choose(message) if is_of_3_1_1 else NOTHING_CHOSEN
        terms = agreed(server, asked, dialect, chosen)
        contexts = answered(chosen, server.settings.chance.take(SALT)) if is_of_3_1_1 else (0, b"")
        answer = negotiated(server, dialect, terms.capabilities, contexts)
        connection.agree(terms)
        if terms.integrity:
            terms.integrity.add(message.data)
            answer.integrity = terms.integrity
        return answer
