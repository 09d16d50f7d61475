"""Requests and replies of the machines as SMB2 messages."""
from __future__ import annotations

import struct
from collections.abc import Callable
from typing import Any

from smblease import replies, requests

from tests.drive import hand_made
from tests.drive.hand_made import file_id, message, of_session

CREATE, CLOSE, READ, WRITE, BREAK = 5, 6, 8, 9, 18
NOT_ANSWERING = 0xFFFFFFFFFFFFFFFF
COMMANDS: dict[type, int] = {
    requests.CreateRequest: CREATE, requests.ReadRequest: READ, requests.WriteRequest: WRITE, requests.CloseRequest: CLOSE,
    requests.AcknowledgeRequest: BREAK,
}
_REQUESTS: dict[type, Callable[[int, Any], bytes]] = {
    requests.CreateRequest: lambda id, it: hand_made.create(id, f"f{it.file}", it.contexts),
    requests.ReadRequest: lambda id, it: hand_made.read(id, it.file_id),
    requests.WriteRequest: lambda id, it: hand_made.write(id, it.file_id, it.offset, it.data),
    requests.CloseRequest: lambda id, it: hand_made.close(id, file_id(it.file_id)),
    requests.AcknowledgeRequest: lambda id, it: message(BREAK, it.message, id),
}
_REPLIES: dict[type, Callable[[int, Any], bytes]] = {
    replies.Created: lambda id, it: hand_made.created(id, it.file_id, it.contexts),
    replies.ReadDone: lambda id, it: hand_made.read_done(id, it.data),
    replies.WriteDone: lambda id, it: hand_made.write_done(id, 1),
    replies.Closed: lambda id, it: hand_made.closed(id),
    replies.AcknowledgeDone: lambda id, it: message(BREAK, it.message, id, answers=True),
    replies.Break: lambda id, it: message(BREAK, it.message, NOT_ANSWERING, answers=True),
    replies.CreateFailed: lambda id, it: failed(CREATE, id, it.status),
    replies.ReadFailed: lambda id, it: failed(READ, id, it.status),
    replies.WriteFailed: lambda id, it: failed(WRITE, id, it.status),
    replies.CloseFailed: lambda id, it: failed(CLOSE, id, it.status),
    replies.AcknowledgeFailed: lambda id, it: failed(BREAK, id, it.status),
}
# the requests that replies answer
_ANSWERS: dict[type, type] = {
    replies.Created: requests.CreateRequest, replies.CreateFailed: requests.CreateRequest,
    replies.ReadDone: requests.ReadRequest, replies.ReadFailed: requests.ReadRequest,
    replies.WriteDone: requests.WriteRequest, replies.WriteFailed: requests.WriteRequest,
    replies.Closed: requests.CloseRequest, replies.CloseFailed: requests.CloseRequest,
    replies.AcknowledgeDone: requests.AcknowledgeRequest, replies.AcknowledgeFailed: requests.AcknowledgeRequest,
}
# what a reply repeats of its request, where it has it
_REPEATED = ("file", "number")


def answers(reply: replies.Reply, request: requests.Request) -> bool:
    """Whether a reply may answer a request."""
    if _ANSWERS[type(reply)] is not type(request):
        return False
    names = _REPEATED if isinstance(request, requests.CreateRequest) else (*_REPEATED, "file_id")
    return all(getattr(request, it) == getattr(reply, it) for it in names if hasattr(request, it) and hasattr(reply, it))


def failed(command: int, identifier: int, status: int) -> bytes:
    return message(command, struct.pack("<HHLB", 9, 0, 0, 0), identifier, status, True)


def request_message(session: int, identifier: int, request: requests.Request) -> bytes:
    return of_session(_REQUESTS[type(request)](identifier, request), session)


def reply_message(session: int, identifier: int, reply: replies.Reply) -> bytes:
    return of_session(_REPLIES[type(reply)](identifier, reply), session)


def pending_message(session: int, identifier: int, request: requests.Request) -> bytes:
    return of_session(hand_made.pending(identifier, COMMANDS[type(request)]), session)
