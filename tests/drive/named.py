"""Servers that are reached by their address, as those of other people are: each is a process that a test has started."""
from __future__ import annotations

import subprocess
import sys
from collections.abc import Iterator
from contextlib import contextmanager

from smblease.drive.place import Place
from smblease.drive.servers import PrivateServer
from smblease.serve.server_process import ServerProcess
from tests.paths import TESTS


def words_of(place: Place) -> list[str]:
    """The words of a command line that name a server."""
    return ["--server", f"{place.host}:{place.port}", "--share", place.share, "--user", f"{place.user}%{place.password}"]


def place_of(words: list[str]) -> Place:
    """Where the server is that these words name."""
    named = dict(zip(words[::2], words[1::2]))
    (host, port), (user, password) = named["--server"].split(":"), named["--user"].split("%")
    return Place(host, int(port), named["--share"], user, password)


@contextmanager
def named_smbd(more: str = "", protocol: str = "SMB2_10") -> Iterator[list[str]]:
    """A private smbd; `more` are lines of its configuration."""
    server = PrivateServer(protocol=protocol, more=more)
    try:
        yield words_of(server.place)
    finally:
        server.close()


@contextmanager
def named_proved(program: str, *words: str) -> Iterator[list[str]]:
    """A serve/run with these words."""
    server = ServerProcess(program, words=list(words))
    try:
        yield words_of(server.place)
    finally:
        server.close()


@contextmanager
def named_small(*words: str) -> Iterator[list[str]]:
    """A small server over the manager (small_server.py) with these words."""
    command = [sys.executable, str(TESTS / "drive" / "small_server.py"), *words]
    with subprocess.Popen(command, stdin=subprocess.DEVNULL, stdout=subprocess.PIPE, text=True) as process:
        try:
            assert process.stdout
            port = int(process.stdout.readline().split()[1])
            yield words_of(Place("127.0.0.1", port, "share", "guest", "guest"))
        finally:
            # (an interruption is passed over by what a shell put into the background)
            process.terminate()
            process.wait(timeout=30)
