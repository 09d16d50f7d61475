"""FSCTL_VALIDATE_NEGOTIATE_INFO (3.3.5.15.12): whether somebody changed what a client and the server agreed on."""
from __future__ import annotations

import struct
from collections.abc import Callable
from dataclasses import replace
from typing import Union

from smblease import Status
from smblease.drive.headers import HEADER, Unreadable
from smblease.serve.asks import Handling
from smblease.serve.dialects import Dialect
from smblease.serve.negotiation import Asked
from smblease.serve.packets import Answer, RequestMessage
from smblease.serve.request import Handlers, Request
from smblease.serve.status_error import StatusError

VALIDATE = 0x140204
# What is asked up to its dialects, and the answer (2.2.31.4, 2.2.32.6).
ASKED, ANSWER = struct.Struct("<L16sHH"), struct.Struct("<L16sHH")
Handler = Callable[[Request], Union[Answer, Handling]]


def read_asked(message: RequestMessage) -> Asked:
    place, length = message.number(HEADER + 24, 4), message.number(HEADER + 28, 4)
    data = message.part(place, length)
    try:
        capabilities, guid, mode, count = ASKED.unpack_from(data)
        return Asked(mode, capabilities, guid, struct.unpack_from(f"<{count}H", data, ASKED.size))
    except struct.error:
        raise Unreadable from None


class ValidateNegotiate(Handlers):
    def before(self, other: Handler) -> Handler:
        """What handles IOCTL, where a dialect of 3 is offered; other codes than this one are another's."""
        def control(request: Request) -> Answer | Handling:
            if request.message.number(HEADER + 4, 4) == VALIDATE:
                return self._validate(request)
            return other(request)
        return control

    def _validate(self, request: Request) -> Answer:
        """What doesn't agree ends the connection."""
        connection, message = request.connection, request.message
        terms = connection.terms
        try:
            asked = read_asked(message)
            # (its own dialects need not be in the order of NEGOTIATE)
            is_same = terms and terms.dialect is not Dialect.SMB_3_1_1 and message.number(HEADER + 44, 4) >= ANSWER.size \
                and replace(asked, dialects=terms.asked.dialects) == terms.asked \
                and self._server.settings.dialects.common(asked.dialects) is terms.dialect
        except Unreadable:
            is_same = False
        if not terms or not is_same:
            connection.end()
            raise StatusError(Status.ACCESS_DENIED)
        data = ANSWER.pack(terms.capabilities, self._server.guid, terms.mode, terms.dialect)
        head = struct.pack("<HHL16sLLLLLL", 49, 0, VALIDATE, message.part(HEADER + 8, 16), HEADER + 48, 0, HEADER + 48,
                           len(data), 0, 0)
        return Answer(Status.SUCCESS, head + data)
