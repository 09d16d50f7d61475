"""All by which somebody steers a server that runs: a descriptor, a socket, and a script."""
from __future__ import annotations

import contextlib
from collections.abc import Iterator

from smblease.serve.control_lines import ControlLines
from smblease.serve.control_streams import ControlDescriptor, control_socket
from smblease.serve.script import Script
from smblease.serve.server import Server


@contextlib.contextmanager
def controlled(server: Server, descriptor: int | None, path: str | None, script: str | None) -> Iterator[None]:
    """Each of them where it is given."""
    answers = ControlLines(server).answer
    if descriptor is not None:
        ControlDescriptor(server.loop, descriptor, answers)
    with contextlib.ExitStack() as ending:
        if script is not None:
            server.script = ending.enter_context(contextlib.closing(Script(server, script)))
            server.script.go_on()
        ending.enter_context(control_socket(server.loop, path, answers))
        yield
