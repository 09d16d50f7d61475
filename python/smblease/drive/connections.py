"""SMB connections: one for each client, over impacket's transport, NTLM and structures."""
# pylint: disable=protected-access
# (impacket has no other way to its socket and its count of messages)
from __future__ import annotations

import select
import struct
import time
from collections.abc import Iterator
from contextlib import contextmanager, suppress
from socket import SHUT_WR
from typing import Any

from impacket import ntlm
from impacket import smb3structs as smb2
from impacket.krb5.ccache import CCache
from impacket.smb3 import SessionError

import smblease
from smblease.drive import headers
from smblease.drive.faults import DriveFault
from smblease.drive.headers import HEADER
from smblease.drive.place import Place
from smblease.drive.protocol import Protocol
from smblease.drive.received import PATIENCE, FileId, Message
from smblease.replies import AcknowledgeDone, Closed, Created, ReadDone, Reply, WriteDone, failed
from smblease.requests import CloseRequest, CreateRequest, ReadRequest, Request, WriteRequest
from smblease.serve.dialects import Dialect, name_of
from smblease.values import LARGEST_FILE, Access, Status

# The header of a request that isn't signed (2.2.1.2), and the body of an ECHO (2.2.28).
REQUEST, PROTOCOL = struct.Struct("<4sHHLHHLLQLLQ16s"), b"\xfeSMB"
ECHO, CREDITS = struct.pack("<HH", 4, 0), 127
OPLOCK_LEVEL_LEASE = 0xFF
CREDIT_BYTES = 65536
# How long a server may take to close a connection that its client has closed.
ENDING = 0.5
SESSION_TRIES = 20
BETWEEN_TRIES = 0.1
ACCESS = {Access.READ: 0x120089, Access.WRITE: 0x120116, Access.READ_WRITE: 0x12019F}
SHARE_ALL = 7


@contextmanager
def told(what: str, need: str = "", need_of_network: str = "") -> Iterator[None]:
    """What fails in here is a DriveFault that says what that was, with one line of why, and of what is needed: of the network,
    where that is what fails."""
    try:
        yield
    except DriveFault:
        raise
    except Exception as fault:  # impacket raises bare ones too
        wanted = need_of_network or need if isinstance(fault, OSError) else need
        raise DriveFault(f"{what}: {_why(fault)}" + (f"; {wanted}" if wanted else "")) from fault


def _why(fault: Exception) -> str:
    """One line; impacket has the fault of a socket within another one."""
    if isinstance(fault, SessionError):
        code = int(fault.get_error_code())
        return f"STATUS_{Status(code).name}" if code in set(Status) else f"status {code:08x}"
    if isinstance(fault, OSError) and isinstance(fault.strerror, OSError):
        return _why(fault.strerror)
    text = str((isinstance(fault, OSError) and fault.strerror) or fault)
    return (text.splitlines() or [type(fault).__name__])[0][:120]


class Connection:
    """A connection with its session and tree. What it can't do is a DriveFault."""

    def __init__(self, place: Place, guid: bytes) -> None:
        self._smb, self._tree = _connected(place, guid)

    @property
    def dialect(self) -> Dialect:
        return self._smb.dialect

    def send(self, request: Request, name: str, file_id: FileId) -> int:
        """Sends a request, whose file has this name, or whose FileId is this one; answers its number."""
        wire_id = _filled(smb2.SMB2_FILEID(), Persistent=file_id.persistent, Volatile=file_id.volatile)
        if isinstance(request, CreateRequest):
            return self._send(smb2.SMB2_CREATE, _create(request, name))
        if isinstance(request, ReadRequest):
            read = _filled(smb2.SMB2Read(), Padding=0x50, FileID=wire_id, Length=LARGEST_FILE)
            return self._send(smb2.SMB2_READ, read, LARGEST_FILE)
        if isinstance(request, WriteRequest):
            length = len(request.data)
            write = _filled(smb2.SMB2Write(), FileID=wire_id, Offset=request.offset, Length=length, Buffer=request.data)
            return self._send(smb2.SMB2_WRITE, write, length)
        if isinstance(request, CloseRequest):
            return self._send(smb2.SMB2_CLOSE, _filled(smb2.SMB2Close(), FileID=wire_id))
        return self._send(smb2.SMB2_OPLOCK_BREAK, request.message)

    def echo(self) -> int:
        """Asks whether the server is there; most of what goes over a connection is that, so it doesn't go through the structures
        of impacket."""
        number = int(self._smb._Connection["SequenceWindow"])
        self._smb._Connection["SequenceWindow"] += 1
        header = REQUEST.pack(PROTOCOL, HEADER, 1, 0, smb2.SMB2_ECHO, CREDITS, 0, 0, number, 0, self._tree,
                              self._smb._Session["SessionID"], b"")
        with told("a connection is lost"):
            self._smb.frames.send_packet(header + ECHO)
        return number

    def receive(self, until: float) -> Message | None:
        """The next message, or none where none comes until this time."""
        with told("a connection is lost"):
            socket = self._smb.frames.get_socket()
            if not select.select([socket], [], [], max(0.0, until - time.monotonic()))[0]:
                return None
            header = headers.Message(self._smb.frames.recv_packet(PATIENCE).get_trailer())
            return Message(header.identifier, header.status, header.data[HEADER:])

    def make_file(self, name: str, data: bytes) -> None:
        with told(f"file {name} can't be made", "the user needs a share in which files may be made, written and removed"):
            access, options = ACCESS[Access.READ_WRITE], smb2.FILE_NON_DIRECTORY_FILE
            file = self._smb.create(self._tree, name, access, 0, options, smb2.FILE_CREATE, 0)
            for offset in range(0, len(data), CREDIT_BYTES):
                part = data[offset:offset + CREDIT_BYTES]
                self._smb.write(self._tree, file, part, offset, len(part))
            self._smb.close(self._tree, file)

    def remove_file(self, name: str) -> None:
        options = smb2.FILE_NON_DIRECTORY_FILE | smb2.FILE_DELETE_ON_CLOSE
        with told(f"file {name} can't be removed"):
            file = self._smb.create(self._tree, name, smb2.DELETE, SHARE_ALL, options, smb2.FILE_OPEN, 0)
            self._smb.close(self._tree, file)

    def end(self) -> None:
        """Closes it, and waits until the server has closed it too, or doesn't for a while."""
        stream = self._smb.frames.get_socket()
        stream.settimeout(ENDING)
        with suppress(OSError):
            stream.shutdown(SHUT_WR)
            while stream.recv(CREDIT_BYTES):
                pass
        self.close()

    def close(self) -> None:
        self._smb.frames.close()

    def _send(self, command: int, data: object, length: int = 0) -> int:
        charge = max(1, -(-length // CREDIT_BYTES))
        packet = _filled(self._smb.SMB_PACKET(), Command=command, TreeID=self._tree, CreditCharge=charge, Data=data)
        with told("a connection is lost"):
            number = self._smb.sendSMB(packet)
        # A request of several credits takes as many numbers (3.2.4.1.5); impacket counts them at the answer.
        self._smb._Connection["SequenceWindow"] += charge - 1
        return number


def _connected(place: Place, guid: bytes) -> tuple[Protocol, int]:
    """A connection with a session, and a tree. What the server has no memory for is tried again: smbd says so until its daemon of
    notifications has started."""
    for left in range(SESSION_TRIES - 1, -1, -1):
        smb = _negotiated(place, guid)
        try:
            return smb, _tree(smb, place)
        except DriveFault as fault:
            if not left or not _is_want_of_memory(fault.__cause__):
                raise
            smb.close_session()
            time.sleep(BETWEEN_TRIES)
    raise DriveFault("no session was tried")


def _nowhere(place: Place) -> str:
    return f"no connection to {place.host}:{place.port}"


def _negotiated(place: Place, guid: bytes) -> Protocol:
    """A connection that speaks one of the dialects that its place has."""
    names = " or ".join(map(name_of, place.dialects))
    need = f"the server has to speak dialect {names} (smbd: `server min protocol` and `server max protocol`)"
    with told(_nowhere(place), need, "an SMB server has to be there that takes connections"):
        return Protocol(place, guid)


def _tree(smb: Protocol, place: Place) -> int:
    """The share, after the user was let in."""
    if place.by_ticket:
        _log_in_by_ticket(smb, place)
    else:
        with told(_nowhere(place), f"the server has to let user {place.user} in with this password"):
            smb.login(place.user, place.password, place.domain)
    without = ", without encryption, which dialect 2.1 doesn't have (smbd: `smb encrypt`; Windows: EncryptData)"
    with told(_nowhere(place), f"share {place.share} has to be there for user {place.user}"
                               + ("" if smb.dialect >= Dialect.SMB_3_0 else without)):
        return int(smb.connectTree(place.share))


def _log_in_by_ticket(smb: Protocol, place: Place) -> None:
    """By a ticket of the cache that KRB5CCNAME names."""
    need = "a ticket for the server is needed, in the cache that KRB5CCNAME names (kinit), and the server's name in --server"
    with told(_nowhere(place), need):
        domain, user, granting, ticket = CCache.parseFile(place.domain, place.user, f"cifs/{place.host}")
        if granting is None and ticket is None:
            raise DriveFault(f"{_nowhere(place)}: {need}")
        smb.kerberosLogin(user, "", domain, TGT=granting, TGS=ticket)


def _is_want_of_memory(fault: BaseException | None) -> bool:
    return isinstance(fault, SessionError) and fault.get_error_code() == Status.NO_MEMORY


def _filled(structure: Any, **values: object) -> Any:
    """A structure of impacket with these values of its fields."""
    for name, value in values.items():
        structure[name] = value
    return structure


def _create(request: CreateRequest, name: str) -> smb2.SMB2Create:
    text, level = name.encode("utf-16le"), OPLOCK_LEVEL_LEASE if smblease.find_context(request.contexts, b"RqLs") else 0
    create = _filled(smb2.SMB2Create(), RequestedOplockLevel=level, ImpersonationLevel=smb2.SMB2_IL_IMPERSONATION,
                     DesiredAccess=ACCESS[request.access], ShareAccess=request.share.value, CreateDisposition=smb2.FILE_OPEN,
                     CreateOptions=smb2.FILE_NON_DIRECTORY_FILE, NameLength=len(text), Buffer=text)
    if request.contexts:
        padded = text + bytes(-len(text) % 8)
        _filled(create, CreateContextsOffset=64 + smb2.SMB2Create.SIZE + len(padded),
                CreateContextsLength=len(request.contexts), Buffer=padded + request.contexts)
    return create


@told("an answer can't be read")
def reply_of(request: Request, message: Message) -> tuple[Reply, FileId | None]:
    """What a message answers to its request, and the FileId of an open that was made."""
    if message.status != Status.SUCCESS:
        if isinstance(request, ReadRequest) and message.status == Status.END_OF_FILE:
            return ReadDone(request.file_id, b""), None
        return failed(request, message.status), None
    if isinstance(request, CreateRequest):
        answer = smb2.SMB2Create_Response(message.data)
        file_id = FileId(answer["FileID"]["Persistent"], answer["FileID"]["Volatile"])
        start = answer["CreateContextsOffset"] - 64
        contexts = message.data[start:start + answer["CreateContextsLength"]] if answer["CreateContextsLength"] else b""
        return Created(request.file, file_id.persistent, contexts), file_id
    if isinstance(request, ReadRequest):
        read = smb2.SMB2Read_Response(message.data)
        start = read["DataOffset"] - 64
        return ReadDone(request.file_id, message.data[start:start + read["DataLength"]]), None
    if isinstance(request, WriteRequest):
        if smb2.SMB2Write_Response(message.data)["Count"] != len(request.data):
            raise DriveFault("the server wrote a part of what it was given")
        return WriteDone(request.file_id, request.number), None
    if isinstance(request, CloseRequest):
        return Closed(request.file_id), None
    return AcknowledgeDone(message.data[:smblease.messages.RESPONSE_SIZE]), None


def password_hash(password: str) -> str:
    return str(ntlm.compute_nthash(password).hex().upper())
