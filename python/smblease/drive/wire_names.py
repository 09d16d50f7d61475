"""ClientGuids and lease keys as they go over the wire. A named server may still have leases and durable opens of earlier runs,
and refuses a key that it knows of another file; so each run has its own ones there, and its record those of the schedule."""
from __future__ import annotations

import os
from dataclasses import dataclass, field, replace
from functools import partial

from smblease import (AcknowledgeDone, AcknowledgeRequest, Break, Created, CreateRequest, Reply, Request, find_context,
                      replace_data)

LEASE = b"RqLs"
KEY_LENGTH = 16
# where a break message has its key, in its 16 bytes (2.2.23.2, 2.2.24.2)
KEY_PLACE = 8


@dataclass(frozen=True)
class WireNames:
    """Sixteen bytes that are added, bit by bit, to each ClientGuid and key; adding them again takes them away."""

    mask: bytes = field(default_factory=partial(os.urandom, KEY_LENGTH))

    def of(self, name: bytes) -> bytes:
        """A ClientGuid or key of the schedule as it is on the wire, and the other way round."""
        return bytes(one ^ other for one, other in zip(name, self.mask))

    def of_request(self, request: Request) -> Request:
        """A request as it is sent."""
        if isinstance(request, CreateRequest):
            return replace(request, contexts=self._contexts(request.contexts))
        return replace(request, message=self._message(request.message)) if isinstance(request, AcknowledgeRequest) else request

    def of_reply(self, reply: Reply) -> Reply:
        """A reply as the client machine takes it."""
        if isinstance(reply, Created):
            return replace(reply, contexts=self._contexts(reply.contexts))
        return replace(reply, message=self._message(reply.message)) if isinstance(reply, (AcknowledgeDone, Break)) else reply

    def _contexts(self, text: bytes) -> bytes:
        lease = find_context(text, LEASE)
        return replace_data(text, LEASE, self.of(lease.data[:KEY_LENGTH])) if lease else text

    def _message(self, message: bytes) -> bytes:
        end = KEY_PLACE + KEY_LENGTH
        return message[:KEY_PLACE] + self.of(message[KEY_PLACE:end]) + message[end:]
