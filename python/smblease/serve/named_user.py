"""A named user's password, and the key that his sessions are signed with: by impacket, which nothing else of the server needs."""
from __future__ import annotations

from dataclasses import dataclass, field

from impacket import ntlm
from impacket.smbserver import computeNTLMv2

from smblease.drive.headers import Unreadable


@dataclass(frozen=True)
class NamedUser:
    name: str
    password: str = field(repr=False)

    def key(self, negotiate: bytes, challenge: bytes, authenticate: bytes) -> bytes | None:
        try:
            first, second, third = ntlm.NTLMAuthNegotiate(), ntlm.NTLMAuthChallenge(), ntlm.NTLMAuthChallengeResponse()
            for message, data in ((first, negotiate), (second, challenge), (third, authenticate)):
                message.fromString(data)
            name = third["user_name"].decode("utf-16le", errors="replace")
            status, key = computeNTLMv2(name, ntlm.compute_lmhash(self.password), ntlm.compute_nthash(self.password),
                                        second["challenge"], third, second, first)
        except Exception:  # impacket raises bare ones at bytes that it can't read
            raise Unreadable from None
        return None if status else bytes(key[:16])

    def mic(self, key: bytes, flags: int, data: bytes, side: str) -> bytes:
        if not flags & ntlm.NTLMSSP_NEGOTIATE_EXTENDED_SESSIONSECURITY:
            raise Unreadable
        seal = ntlm.ARC4.new(ntlm.SEALKEY(flags, key, side)).encrypt
        return bytes(ntlm.MAC(flags, seal, ntlm.SIGNKEY(flags, key, side), 0, data).getData())
