"""Requests, replies, notes, outs and answers as the words of lines (docs/FORMATS.md), and read from them.

A word that names the kind comes first, and then the fields of the dataclass in their order; a note has its client between these.
What can't be read raises ValueError.

>>> read_request("read 7")
ReadRequest(file_id=7)
"""
from __future__ import annotations

import re
from collections.abc import Callable
from dataclasses import fields
from typing import Any, Mapping

from smblease import outs, replies, requests, steps
from smblease.values import Access, LeaseState, Share, read_status, status_word

_DECIMAL = re.compile("0|[1-9][0-9]*")
_BYTES_IN_HEX = re.compile("(?:[0-9a-fA-F]{2})+")


def read_number(word: str, least: int = 0, most: int | None = None) -> int:
    """The number that a line has as this word: decimal digits, without a sign and without leading zeros.

    >>> read_number("1_000")
    Traceback (most recent call last):
    ...
    ValueError: '1_000' is no number

    >>> read_number("256", 1, 255)
    Traceback (most recent call last):
    ...
    ValueError: 256 isn't from 1 to 255
    """
    if not _DECIMAL.fullmatch(word):
        raise ValueError(f"{word[:200]!r} is no number")
    number = int(word)
    if number < least or most is not None and number > most:
        raise ValueError(f"{word[:200]} isn't from {least} to {most}")
    return number


# the numbers of clients and files
_NAMED = 1, 255


def _numbers(least: int, most: int) -> tuple[Callable[[Any], str], Callable[[str], Any]]:
    return str, lambda word: read_number(word, least, most)


def digits(data: bytes) -> str:
    """Bytes as lines have them.

    >>> digits(b"abc"), digits(b"")
    ('616263', '-')
    """
    return data.hex() or "-"


def read_digits(word: str) -> bytes:
    """The bytes that a line has as this word.

    >>> read_digits("616263"), read_digits("-")
    (b'abc', b'')
    """
    if word == "-":
        return b""
    if not _BYTES_IN_HEX.fullmatch(word):
        raise ValueError(f"{word[:200]!r} isn't bytes in hexadecimal digits")
    return bytes.fromhex(word)


ACCESS = {"r": Access.READ, "w": Access.WRITE, "rw": Access.READ_WRITE}
SHARE = {"-": Share.NONE, "r": Share.READ, "w": Share.WRITE, "rw": Share.READ_WRITE}
_REFUSAL = {it.name.replace("_", "").lower(): it for it in steps.Refusal}
_OUTCOME = {it.name.lower(): it for it in steps.Settlement}
_BUFFERED = {"buffered": True, "through": False}
_CACHED = {"cached": True, "served": False}


def _one_of(words: Mapping[str, Any]) -> tuple[Callable[[Any], str], Callable[[str], Any]]:
    names = {value: word for word, value in words.items()}
    return names.__getitem__, words.__getitem__


_BYTES = digits, read_digits
# How each field is written and read.
_FIELDS: dict[str, tuple[Callable[[Any], str], Callable[[str], Any]]] = {
    **dict.fromkeys(("file", "client"), _numbers(*_NAMED)), "offset": _numbers(0, 2**32 - 1),
    **dict.fromkeys(("file_id", "number"), _numbers(0, 2**64 - 1)),
    **dict.fromkeys(("contexts", "data", "message"), _BYTES),
    "access": _one_of(ACCESS), "share": _one_of(SHARE), "refusal": _one_of(_REFUSAL), "outcome": _one_of(_OUTCOME),
    "buffered": _one_of(_BUFFERED), "cached": _one_of(_CACHED), "state": (str, LeaseState.of),
    "status": (status_word, read_status),
}
_REQUESTS: dict[str, Any] = {
    "create": requests.CreateRequest, "read": requests.ReadRequest, "write": requests.WriteRequest,
    "close": requests.CloseRequest, "ack": requests.AcknowledgeRequest,
}
_REPLIES: dict[str, Any] = {
    "created": replies.Created, "createfailed": replies.CreateFailed, "readdone": replies.ReadDone,
    "readfailed": replies.ReadFailed, "writedone": replies.WriteDone, "writefailed": replies.WriteFailed,
    "closed": replies.Closed, "closefailed": replies.CloseFailed, "break": replies.Break, "ackdone": replies.AcknowledgeDone,
    "ackfailed": replies.AcknowledgeFailed,
}
_NOTES: dict[str, Any] = {
    "settled": steps.Settled, "wrote": steps.Wrote, "believes": steps.Believes, "cachedread": steps.CachedRead,
}
_CHANGES: dict[str, Any] = {"opened": outs.Opened, "changed": outs.Changed}
_ANSWERS: dict[str, Any] = {
    "done": steps.Done, "waiting": steps.Waiting, "bytes": steps.FileBytes, "refused": steps.Refused, "failed": steps.Failed,
    "quiet": steps.Quiet,
}
_KIND_WORDS = {kind: word for kinds in (_REQUESTS, _REPLIES, _NOTES, _CHANGES, _ANSWERS) for word, kind in kinds.items()}


def _words(item: Any) -> str:
    found = [_FIELDS[it.name][0](getattr(item, it.name)) for it in fields(item)]
    return " ".join([_KIND_WORDS[type(item)], *found])


def _read(kinds: Mapping[str, Any], text: str) -> Any:
    word, *words = text.split(" ")
    try:
        kind = kinds[word]
        names = [it.name for it in fields(kind)]
        if len(words) == len(names):
            return kind(*(_FIELDS[name][1](it) for name, it in zip(names, words)))
    except KeyError:
        pass
    raise ValueError(f"no line of the machines has {text[:200]!r}")


def request_words(request: requests.Request) -> str:
    """What follows `receive C`, and in a schedule `raw C`.

    >>> request_words(requests.WriteRequest(7, 1, 0, b"X"))
    'write 7 1 0 58'
    """
    return _words(request)


def read_request(text: str) -> requests.Request:
    """The request that `request_words` gives these words.

    >>> read_request("create 1 r rw -")
    CreateRequest(file=1, access=<Access.READ: 1>, share=<Share.READ_WRITE: 3>, contexts=b'')
    """
    request: requests.Request = _read(_REQUESTS, text)
    return request


def reply_words(reply: replies.Reply) -> str:
    """What follows `take C`, and what the server machine writes after `sent C`.

    >>> reply_words(replies.CreateFailed(1, 0xC0000043))
    'createfailed 1 STATUS_SHARING_VIOLATION'
    """
    return _words(reply)


def read_reply(text: str) -> replies.Reply:
    """The reply that `reply_words` gives these words.

    >>> read_reply("readdone 7 616263")
    ReadDone(file_id=7, data=b'abc')
    """
    reply: replies.Reply = _read(_REPLIES, text)
    return reply


def note_words(client: int, note: steps.Note) -> str:
    """The fact of a record that a client's note is.

    >>> note_words(2, steps.Wrote(1, 1, 0, b"X", buffered=True))
    'wrote 2 1 1 0 58 buffered'
    """
    word, _, rest = _words(note).partition(" ")
    return f"{word} {client} {rest}"


def read_note(text: str) -> tuple[int, steps.Note]:
    """The client and the note of such a fact.

    >>> read_note("believes 2 1 RH")
    (2, Believes(file=1, state=<LeaseState RH>))
    """
    word, client, rest = (text.split(" ", 2) + ["", ""])[:3]
    return read_number(client, *_NAMED), _read(_NOTES, f"{word} {rest}")


def out_words(out: outs.Out) -> str:
    """The fact of a record that a server's out is.

    >>> out_words(outs.Opened(1, 2)), out_words(outs.Sent(2, replies.Closed(7)))
    ('opened 1 2', 'sent 2')
    """
    return f"sent {out.client}" if isinstance(out, outs.Sent) else _words(out)


def read_out(text: str) -> outs.Out:
    """The out that the server machine writes so.

    >>> read_out("sent 2 closed 7")
    Sent(client=2, reply=Closed(file_id=7))
    """
    word, client, rest = (text.split(" ", 2) + ["", ""])[:3]
    return outs.Sent(read_number(client, *_NAMED), read_reply(rest)) if word == "sent" else _read(_CHANGES, text)


def read_answer(text: str) -> steps.Answer:
    """What a client machine's last line for a call says after `answer`.

    >>> read_answer("bytes 616263 cached"), read_answer("refused notopen")
    (FileBytes(data=b'abc', cached=True), Refused(refusal=<Refusal.NOT_OPEN: 1>))
    """
    answer: steps.Answer = _read(_ANSWERS, text)
    return answer
