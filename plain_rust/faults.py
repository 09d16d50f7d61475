"""What stops the generator."""

from dataclasses import dataclass


@dataclass
class NotKnown(Exception):
    """Something stands in a source that no rule covers."""

    file: str
    line: int
    what: str

    def __str__(self) -> str:
        return f"{self.file}:{self.line}: {self.what}"
