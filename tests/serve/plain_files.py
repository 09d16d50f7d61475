"""What the files of a share hold by the answers that clients got: a plain model, which knows nothing of leases."""
from __future__ import annotations

from dataclasses import dataclass, field

OVERWRITTEN = (0, 3)


@dataclass(eq=False)
class PlainFile:
    name: str
    data: bytearray = field(default_factory=bytearray)
    opens: set[int] = field(default_factory=set)
    goes: bool = False


class PlainFiles:
    def __init__(self) -> None:
        self.named: dict[str, PlainFile] = {}
        self.opened: dict[int, PlainFile] = {}

    @property
    def contents(self) -> dict[str, bytes]:
        return {name: bytes(it.data) for name, it in self.named.items()}

    def create(self, name: str, file_id: int, action: int, length: int) -> None:
        """An open was answered, which says what it found or did and how long the file is."""
        if file_id in self.opened:
            return
        assert (action == 2) == (name not in self.named), (name, action)
        found = self.named.setdefault(name, PlainFile(name))
        if action in OVERWRITTEN:
            found.data.clear()
        assert len(found.data) == length, (name, len(found.data), length)
        found.opens.add(file_id)
        self.opened[file_id] = found

    def write(self, file_id: int, offset: int, data: bytes) -> None:
        found = self.opened[file_id].data
        if data:
            found += bytes(max(0, offset - len(found)))
            found[offset:offset + len(data)] = data

    def resize(self, file_id: int, size: int) -> None:
        found = self.opened[file_id].data
        found += bytes(max(0, size - len(found)))
        del found[size:]

    def read(self, file_id: int, offset: int, length: int) -> bytes:
        return bytes(self.opened[file_id].data[offset:offset + length])

    def rename(self, file_id: int, name: str) -> None:
        found = self.opened[file_id]
        assert name not in self.named or self.named[name] is found
        del self.named[found.name]
        found.name = name
        self.named[name] = found

    def delete(self, file_id: int) -> None:
        self.opened[file_id].goes = True

    def close(self, file_id: int) -> None:
        """An open is gone; with the last one goes a file that is to be deleted."""
        found = self.opened.pop(file_id, None)
        if found is None:
            return
        found.opens.remove(file_id)
        if found.goes and not found.opens:
            del self.named[found.name]
