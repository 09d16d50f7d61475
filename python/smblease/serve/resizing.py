"""Another end of a file, which is a change of it as a write is."""
from __future__ import annotations

import os

from smblease.serve.asks import Steps, writing
from smblease.serve.opens import Open
from smblease.serve.record import Record


def resizing(record: Record, opened: Open, size: int, fits: bool = True) -> Steps:
    """Asks for it by an open that may write. An end that goes up is on record as a write of a zero there."""
    assert opened.client
    client, node = opened.client, opened.node
    number, is_longer = client.next_write(), size > node.stat.st_size
    if is_longer and fits:
        record.wrote(client, node, number, size - 1, b"\0")

    def change() -> None:
        before = node.stat.st_size
        opened.has_written = True
        os.ftruncate(node.file, size)
        node.shown.changed(node.identity)
        if is_longer and size > before:
            record.changed(client, node, number, size - 1, b"\0")
        elif size < before:
            record.cut_off(node, size)
    yield from writing(client, node, opened.file_id, change, fits)
