"""Answers to CREATE (2.2.14)."""
from __future__ import annotations

import struct
from smblease import Context, Status, append_context, each_context
from smblease.drive.headers import HEADER
from smblease.serve.access import ALL_ACCESS
from smblease.serve.attributes import attributes_of
from smblease.serve.create_parameters import DURABLE_2, MOST_ACCESS, ON_DISK, CreateParameters
from smblease.serve.opens import BATCH, LEASE, LEASE_CONTEXT, Open
from smblease.serve.packets import Answer

# An answer up to its contexts.
DONE = struct.Struct("<HBBL52s4xQQLL")


def reply(wanted: CreateParameters, opened: Open, contexts: bytes, action: int | None = None) -> Answer:
    """The contexts of leases and durable opens as they are, and after them those that the shell adds. `action` is what it did,
    where the open's own create did something else."""
    node = opened.node
    found = node.shown_stat()
    if MOST_ACCESS in wanted.others:
        contexts = append_context(contexts, Context(MOST_ACCESS, struct.pack("<LL", 0, ALL_ACCESS)))
    if ON_DISK in wanted.others:
        contexts = append_context(contexts, Context(ON_DISK, struct.pack("<QQ16s", found.st_ino, found.st_dev, b"")))
    attributes, done = attributes_of(found, node.kept, node.allocated), opened.action if action is None else action
    body = DONE.pack(89, opened.level, 0, done, attributes, opened.file_id, opened.file_id, HEADER + 88 if contexts else 0,
                     len(contexts))
    return Answer(Status.SUCCESS, body + contexts, opened=opened.file_id)


def oplock_contexts(opened: Open, contexts: bytes) -> bytes:
    """What the manager answered to an oplock's create, without the lease that its client doesn't know of."""
    text = b""
    if opened.is_durable and opened.level == BATCH:
        for context in each_context(contexts):
            if context.name != LEASE_CONTEXT:
                text = append_context(text, context)
    return text


def contexts_again(opened: Open) -> bytes:
    """Those of an open by DH2Q that is answered again, with its lease as it is."""
    lease = opened.lease if opened.level == LEASE else None
    text = append_context(b"", lease.context) if lease else b""
    return append_context(text, Context(DURABLE_2, struct.pack("<LL", opened.timeout, 0)))
