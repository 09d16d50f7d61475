"""Sessions that are set up message by message, by a name and a password, on a connection that has one already."""
from __future__ import annotations

from typing import TYPE_CHECKING

from smblease import Status
from smblease.drive.headers import Message
from tests.serve.requests import ntlm_tokens, session_setup

if TYPE_CHECKING:
    from tests.serve.wire_client import WireClient


def proof(challenge: Message, name: str, password: str) -> tuple[bytes, bytes]:
    """An AUTHENTICATE_MESSAGE that a password was used for, and the key of the session that it makes."""
    from impacket import ntlm  # pylint: disable=import-outside-toplevel
    first = ntlm.NTLMAuthNegotiate()
    first.fromString(ntlm_tokens(name)[0])
    token = challenge.part(challenge.number(68, 2), challenge.number(70, 2))
    message, key = ntlm.getNTLMSSPType3(first, token, name, password, "")
    return bytes(message.getData()), bytes(key)[:16]


def exchange(client: "WireClient", name: str, password: str | None = None, previous: int = 0,
             signs: bool = False) -> tuple[Message, bytes]:
    """An authentication in the name of the client's session, a guest's where it has no password; the last answer, and the key."""
    message, key = client.answer_to(client.send(session_setup(ntlm_tokens(name)[0], previous), signs)), b""
    if message.status == Status.MORE_PROCESSING_REQUIRED:
        client.session = message.session
        token = ntlm_tokens(name)[1]
        if password is not None:
            token, key = proof(message, name, password)
        message = client.answer_to(client.send(session_setup(token, previous), signs))
    return message, key


def set_up(client: "WireClient", name: str, previous: int = 0, password: str | None = None) -> Message:
    """A session of this name besides the one that the connection has; the last answer."""
    used, client.session = client.session, 0
    message, _ = exchange(client, name, password, previous)
    client.session = used
    return message


def add_session(client: "WireClient", name: str, password: str) -> None:
    """One more session, which the client goes on with."""
    client.session = 0
    message, client.key = exchange(client, name, password)
    assert message.status == Status.SUCCESS, hex(message.status)
    client.session = message.session
