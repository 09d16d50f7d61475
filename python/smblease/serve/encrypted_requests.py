"""The requests of an encrypted frame (3.3.5.2.1.1)."""
from __future__ import annotations

from collections.abc import Mapping
from typing import TYPE_CHECKING

from smblease.drive.headers import Unreadable
from smblease.serve.packets import RequestMessage, split_compound
from smblease.serve.transforms import session_of

if TYPE_CHECKING:
    from smblease.serve.sessions import Session


def opened_requests(sessions: Mapping[int, Session], frame: bytes) -> list[RequestMessage]:
    """They have to be in the name of the session that the frame was sealed for (3.3.5.2.7); else the connection ends."""
    identifier = session_of(frame)
    session = sessions.get(identifier)
    if session is None or session.encryption is None:
        raise Unreadable
    messages = split_compound(session.encryption.opened(frame))
    for place, message in enumerate(messages):
        if message.session != identifier and not (place and message.is_related):
            raise Unreadable
        message.came_encrypted(session.encryption)
    return messages
