"""Servers that speak all dialects, and clients that make each message by themselves."""
from __future__ import annotations

from collections.abc import Callable
from typing import TYPE_CHECKING

from tests import needs

if TYPE_CHECKING:
    from tests.serve.modern_client import ModernClient

NEEDED = [needs.package("impacket"), needs.package("cryptography"), needs.package("Cryptodome")]
USER, PASSWORD = "somebody", "secret"
EVERY = ["--min", "2.0.2", "--max", "3.1.1", "--user", f"{USER}%{PASSWORD}"]
Modern = Callable[..., "ModernClient"]


def is_closed(client: "ModernClient") -> bool:
    """Whether the server closes the connection next."""
    from tests.serve.wire_client import Closed  # pylint: disable=import-outside-toplevel
    try:
        client.receive()
    except (Closed, ConnectionError):
        return True
    return False
