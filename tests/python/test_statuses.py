"""Statuses with which a server refuses, as a client's answers have them."""
from __future__ import annotations

import uuid

import pytest

from smblease import (Access, AcknowledgeFailed, Answer, Client, Created, CreateFailed, Done, Failed, LeaseState, Quiet,
                      ReadFailed, Share, Status)

GUID = uuid.UUID(int=7)
# Those that the machines know, those that they don't, and what no refusal has.
KNOWN = (Status.SHARING_VIOLATION, Status.OBJECT_NAME_NOT_FOUND, Status.FILE_CLOSED, Status.UNSUCCESSFUL)
OTHER = (0xC0000056, 0xC0000001 ^ 1 << 31, 0x80000005, 1, 0xFFFFFFFF)


def opening(status: int) -> tuple[Client, Answer]:
    """A client whose open was refused, and the answer."""
    client = Client(GUID, 1)
    client.connect()
    client.open(1, Access.READ, Share.READ, LeaseState.R, durable=False)
    return client, client.take(CreateFailed(1, status)).answer


@pytest.mark.parametrize("status", [*KNOWN, *OTHER])
def test_a_refused_create_is_told_with_its_status(status: int) -> None:
    assert opening(status)[1] == Failed(status)


def test_a_status_of_nothing_is_that_of_a_request_that_failed() -> None:
    assert opening(0)[1] == Failed(Status.UNSUCCESSFUL)


def test_a_status_is_of_one_reply() -> None:
    """Neither a later answer nor a later refusal has it."""
    client, _ = opening(0xC0000056)
    client.open(1, Access.READ, Share.READ, LeaseState.NONE, durable=False)
    assert client.take(AcknowledgeFailed(0xC0000057)).answer == Quiet()
    assert client.take(Created(1, 3, b"")).answer == Done()
    client.read(1)
    assert client.take(ReadFailed(3, 0xC0000185)).answer == Failed(0xC0000185)
