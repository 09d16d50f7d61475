"""impacket's client of SMB 2 and 3, whose frames are guarded by guards.py: by itself it checks nothing that comes."""
from __future__ import annotations

from typing import Any

from impacket import smb3structs as smb2
from impacket.smb3 import SMB3

from smblease.drive import headers
from smblease.drive.faults import DriveFault
from smblease.drive.guards import Frames, Sealing, SettingUp, Signing, Unguarded
from smblease.drive.headers import HEADER
from smblease.drive.negotiation import Agreed, agreed_in, negotiate_request, validated, validation_request
from smblease.drive.place import Place
from smblease.drive.received import PATIENCE
from smblease.serve.dialects import Dialect, name_of
from smblease.serve.session_keys import SessionKeys, session_keys
from smblease.values import Status

NO_KEYS, WANTS_ENCRYPTION = smb2.SMB2_SESSION_FLAG_IS_GUEST | smb2.SMB2_SESSION_FLAG_IS_NULL, smb2.SMB2_SESSION_FLAG_ENCRYPT_DATA
FLAGS_OF_3, KEY_LENGTH = NO_KEYS | WANTS_ENCRYPTION, 16


class Protocol(SMB3):  # type: ignore[misc]
    """A connection of the given ClientGuid, which offers the dialects of its place."""

    _NetBIOSSession: Any
    _agreed: Agreed

    def __init__(self, place: Place, guid: bytes) -> None:
        self._guid, self._place = guid, place
        self._keys: SessionKeys | None = None
        super().__init__(place.host, place.host, sess_port=place.port, timeout=PATIENCE)

    @property
    def frames(self) -> Frames:
        """What all messages go through."""
        found = self._NetBIOSSession
        assert isinstance(found, Frames)
        return found

    def negotiateSession(self, preferredDialect: int | None = None, negSessionResponse: object = None) -> None:
        self.ClientGuid = self._guid
        self._NetBIOSSession = Frames(self._NetBIOSSession)
        if self._place.dialects[-1] < Dialect.SMB_3_0:
            super().negotiateSession(int(self._place.dialects[-1]))
        else:
            packet = self.SMB_PACKET()
            packet["Command"], packet["Data"] = smb2.SMB2_NEGOTIATE, negotiate_request(self._guid, self._place.dialects)
            answer = self.recvSMB(self.sendSMB(packet))
            answer.isValidAnswer(Status.SUCCESS)
        self._agreed = agreed_in(headers.Message(self.frames.last))
        if self._agreed.dialect not in self._place.dialects:
            raise ValueError(f"it chose {self._agreed.dialect.name}, which wasn't offered")
        if self._place.dialects[-1] >= Dialect.SMB_3_0:
            super().negotiateSession(None, answer)
        # (impacket's `create` fails where that is set)
        self._Connection["SupportsDirectoryLeasing"] = False

    def sendSMB(self, packet: smb2.SMB2Packet) -> int:
        if packet["Command"] == smb2.SMB2_NEGOTIATE and isinstance(packet["Data"], smb2.SMB2Negotiate):
            # as dialect 2.1 asks (2.2.3)
            packet["Data"]["Capabilities"] = 0
        return int(super().sendSMB(packet))

    @property
    def dialect(self) -> Dialect:
        return self._agreed.dialect

    def login(self, *words: Any, **named: Any) -> None:
        self._Connection["SupportsEncryption"] = False
        super().login(*words, **named)
        self._guard_session()

    def kerberosLogin(self, *words: Any, **named: Any) -> None:
        self._Connection["SupportsEncryption"] = False
        super().kerberosLogin(*words, **named)
        self._guard_session()

    def connectTree(self, share: str) -> int:
        tree = int(super().connectTree(share))
        shares_flags = headers.Message(self.frames.last).number(HEADER + 4, 4)
        if self.dialect >= Dialect.SMB_3_0 and shares_flags & smb2.SMB2_SHAREFLAG_ENCRYPT_DATA:
            self._encrypt("the share")
        if self._keys and self.dialect in (Dialect.SMB_3_0, Dialect.SMB_3_0_2):
            self._validate(tree)
        return tree

    def _guard_session(self) -> None:
        """From now on, by the keys of the session, if it has any."""
        setting_up, answer = self.frames.guard, headers.Message(self.frames.last)
        assert isinstance(setting_up, SettingUp)
        flags = answer.number(HEADER + 2, 2) & (FLAGS_OF_3 if self.dialect >= Dialect.SMB_3_0 else NO_KEYS)
        self._Session["SigningActivated"], self._Session["SessionFlags"] = False, 0
        self.frames.guard = Unguarded()
        if not flags & NO_KEYS:
            key = bytes(self._Session["SessionKey"])[:KEY_LENGTH]
            self._keys = session_keys(self._agreed, self._session, key, setting_up.integrity.value, is_client=True)
            self._sign(answer)
        if flags & WANTS_ENCRYPTION or self._place.encrypts:
            self._encrypt("--encrypt" if self._place.encrypts else "the server")

    @property
    def _session(self) -> int:
        return int(self._Session["SessionID"])

    def _sign(self, answer: headers.Message) -> None:
        """At dialects of 3 always, where that is cheap; at 2.1 where the server asks for it. The answer that ends the set-up is
        signed at 3.1.1 (3.2.5.3.1)."""
        if self._keys and (self.dialect >= Dialect.SMB_3_0 or self._Connection["RequireSigning"]):
            self.frames.guard = signing = Signing(self._keys.signer)
            if self.dialect is Dialect.SMB_3_1_1:
                signing.check(answer)

    def _encrypt(self, who: str) -> None:
        if self._keys is None or self._keys.encryption is None:
            none = f"at dialect {name_of(self.dialect)} there is none that both have"
            raise DriveFault(f"{who} wants encryption, and {none if self._keys else 'guests have no keys'}")
        self.frames.guard = Sealing(self._session, self._keys.encryption)

    def _validate(self, tree: int) -> None:
        """Whether the server saw the NEGOTIATE that was sent, and sent the answer that came (3.2.5.5)."""
        packet = self.SMB_PACKET()
        packet["Command"], packet["TreeID"] = smb2.SMB2_IOCTL, tree
        packet["Data"] = validation_request(self._guid, self._place.dialects)
        self.recvSMB(self.sendSMB(packet)).isValidAnswer(Status.SUCCESS)
        if validated(headers.Message(self.frames.last)) != self._agreed.said:
            raise DriveFault("somebody changed what was negotiated on its way (FSCTL_VALIDATE_NEGOTIATE_INFO)")
