"""The rules that a server may choose, each where it differs from the other."""
from __future__ import annotations

import uuid

import pytest

from smblease import (Access, Acknowledgment, AcknowledgeRequest, CreateAnswer, CreateAsk, CreateRequest, Created, LeaseState,
                      Out, Rules, Sent, Server, Share, WriteRequest)

KEY, OTHER_KEY = uuid.UUID(int=1), uuid.UUID(int=2)


def create(key: uuid.UUID | None, state: str) -> CreateRequest:
    return CreateRequest(1, Access.READ_WRITE, Share.READ_WRITE, CreateAsk(key, LeaseState.of(state)).write())


def kinds(outs: tuple[Out, ...]) -> list[str]:
    return [type(it.reply if isinstance(it, Sent) else it).__name__ for it in outs]


@pytest.mark.parametrize("text, first, last", [
    ("by-client,as-free", [], ["AcknowledgeDone", "Opened", "Created", "Changed", "WriteDone"]),
    ("by-key,as-free", ["Changed", "WriteDone"], ["AcknowledgeDone", "Opened", "Created"]),
])
def test_a_flush_beside_a_create_without_a_key(text: str, first: list[str], last: list[str]) -> None:
    """The create waits for the break of its own client's lease."""
    with Server([b"abc"], Rules.of(text)) as server:
        server.join(1)
        server.receive(1, create(KEY, "RWH"))
        assert kinds(server.receive(1, create(None, "none"))) == ["Break"]
        assert kinds(server.receive(1, WriteRequest(1, 1, 0, b"X"))) == first
        assert kinds(server.receive(1, AcknowledgeRequest(Acknowledgment(KEY, LeaseState.of("RH")).write()))) == last


@pytest.mark.parametrize("text, state", [("by-client,as-free", "RH"), ("by-client,whole", "R")])
def test_a_lease_that_asks_for_more_beside_another(text: str, state: str) -> None:
    with Server([b"abc"], Rules.of(text)) as server:
        server.join(1)
        server.join(2)
        server.receive(1, create(KEY, "R"))
        server.receive(2, create(OTHER_KEY, "RWH"))
        sent = server.receive(1, create(KEY, "RWH"))[-1]
    assert isinstance(sent, Sent) and isinstance(sent.reply, Created)
    assert CreateAnswer.read(sent.reply.contexts).state == LeaseState.of(state)
