"""What a command line says of a server."""
from __future__ import annotations

from dataclasses import dataclass
from typing import TYPE_CHECKING

from smblease import Rules
from smblease.serve.chance import Chance
from smblease.serve.dialects import Dialects
from smblease.serve.disk_bytes import LARGEST

if TYPE_CHECKING:
    from smblease.serve.named_user import NamedUser


@dataclass(frozen=True)
class Settings:
    share: str
    user: NamedUser | None = None
    break_timer: float = 35.0
    durable_timer: float = 960.0
    # seconds that a connection is kept without a session
    session_timer: float = 30.0
    has_guests: bool = True
    rules: Rules = Rules()
    # the most bytes of a file
    limit: int = LARGEST
    chance: Chance = Chance()
    dialects: Dialects = Dialects()
    # whether what isn't encrypted is refused
    encrypts: bool = False
