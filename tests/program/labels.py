"""What stands at each mark of a picture in a few words, and how its point looks, worked out from the record and its messages."""
from __future__ import annotations

from collections.abc import Callable
from typing import Optional

from smblease.contexts import CreateAnswer, CreateAsk
from smblease.faults import Fault
from smblease.lines import read_reply, read_request
from smblease.messages import Acknowledgment, Notification
from smblease.replies import AcknowledgeDone, AcknowledgeFailed, Break, Closed, CloseFailed, Created, CreateFailed
from smblease.replies import ReadDone, ReadFailed, Reply, WriteDone, WriteFailed
from smblease.requests import AcknowledgeRequest, CloseRequest, CreateRequest, ReadRequest, WriteRequest
from smblease.values import LeaseState
from tests.program.explaining import Fact, bytes_of

LOOKS = {"dropped": "loss", "expired": "loss", "changed": "accepted", "cachedread": "cachedread", "strayed": "stray"}
PLAIN = {ReadFailed: "not read", Closed: "closed", CloseFailed: "not closed", AcknowledgeDone: "acknowledgment accepted",
         AcknowledgeFailed: "acknowledgment refused"}


def count(data: bytes) -> str:
    return "1 byte" if len(data) == 1 else f"{len(data)} bytes"


def grants(key: object, state: LeaseState, durable: bool) -> str:
    return (f", lease {state}" if key else "") + ", durable" * durable


def granted(contexts: bytes) -> str:
    try:
        answer = CreateAnswer.read(contexts)
    except Fault:
        return ""
    return grants(answer.key, answer.state, answer.durable)


def wanted(contexts: bytes) -> str:
    try:
        ask = CreateAsk.read(contexts)
    except Fault:
        return ""
    return " again" if ask.reconnect is not None else grants(ask.key, ask.state, ask.durable)


def message_label(reply: Reply) -> str:
    if isinstance(reply, Created):
        return f"file {reply.file} opened{granted(reply.contexts)}"
    if isinstance(reply, CreateFailed):
        return f"file {reply.file} not opened"
    if isinstance(reply, ReadDone):
        return f"{count(reply.data)} read"
    if isinstance(reply, (WriteDone, WriteFailed)):
        return f"write {reply.number} {'done' if isinstance(reply, WriteDone) else 'failed'}"
    if isinstance(reply, Break):
        notice = Notification.read(reply.message)
        return f"break {notice.current} to {notice.new}"
    return PLAIN[type(reply)]


def deed(fact: Fact) -> str:
    """What its client does, in the words that stand behind the client's name."""
    return fact.in_words().removeprefix(f"client {fact.client} ")


def fact_label(fact: Fact, message: Optional[str]) -> str:
    """`message` is the one that the fact speaks of, in the words of a record's comment."""
    kind, words = fact.kind, fact.words
    said = message_label(read_reply(message)) if message else ""
    labels: dict[str, Callable[[], str]] = {
        "start": lambda: f"file {words[1]}: {count(bytes_of(words[2]))}",
        "expired": lambda: f"break of client {words[1]} timed out, file {words[2]}",
        "sent": lambda: f"to client {words[1]}: {said or 'message'}",
        "took": lambda: said or deed(fact),
        "opened": lambda: f"opens file {words[1]} for client {words[2]}",
        "changed": lambda: f"file {words[1]}: write {words[3]} of client {words[2]}",
        "wrote": lambda: f"write {words[3]} of file {words[2]}, {'buffered' if words[6] == 'buffered' else 'sent on'}",
        "settled": lambda: f"write {words[2]} {words[3]}",
        "believes": lambda: f"believes {words[3]} of file {words[2]}",
        "cachedread": lambda: f"cached read of file {words[2]}",
    }
    return labels[kind]() if kind in labels else deed(fact)


def request_label(words: str) -> str:
    request = read_request(words)
    if isinstance(request, CreateRequest):
        return f"open file {request.file}{wanted(request.contexts)}"
    if isinstance(request, WriteRequest):
        return f"write {request.number}, {count(request.data)}"
    if isinstance(request, AcknowledgeRequest):
        try:
            return f"acknowledge {Acknowledgment.read(request.message).state}"
        except Fault:
            return "acknowledge"
    assert isinstance(request, (ReadRequest, CloseRequest))
    return "read" if isinstance(request, ReadRequest) else "close"


def look_of(kind: str) -> str:
    return LOOKS.get(kind, "event")
