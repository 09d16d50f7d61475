"""Threads that share an object."""
from __future__ import annotations

import threading
import uuid

from smblease import Access, Client, Created, CreateRequest, LeaseState, Note, Share, Wrote


def test_threads_share_a_client() -> None:
    """Each write has a number of its own, and each thread is given its own notes."""
    client = Client(uuid.UUID(int=1), 1)
    client.connect()
    [request] = client.open(1, Access.READ_WRITE, Share.READ_WRITE, LeaseState.of("RWH")).requests
    assert isinstance(request, CreateRequest)
    client.take(Created(1, 7, request.contexts))
    notes: list[tuple[bytes, Note]] = []

    def write(data: bytes) -> None:
        notes.extend((data, note) for _ in range(200) for note in client.write(1, 0, data).notes)
    threads = [threading.Thread(target=write, args=(data,)) for data in (b"a", b"b", b"c", b"d")]
    for thread in threads:
        thread.start()
    for thread in threads:
        thread.join()
    assert sorted(note.number for data, note in notes if isinstance(note, Wrote) and note.data == data) == list(range(1, 801))
