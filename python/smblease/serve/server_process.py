"""A server of serve/run in a process of its own, for those that drive or test it."""
from __future__ import annotations

import os
import select
import signal
import socket
import subprocess
import sys
import tempfile
import uuid
from collections.abc import Sequence
from dataclasses import replace

from smblease._library import TOP
from smblease.drive.faults import DriveFault
from smblease.drive.place import Place, Server
from smblease.serve.dialects import Dialect, name_of
from smblease.values import LARGEST_FILE, Rules

SHARE, USER, PASSWORD = "share", "driver", "private"
PATIENCE = 30.0


class ServerProcess:
    """Started on a free port of loopback, and ended with its verdict where it has a record."""

    def __init__(self, leasecheck: str, record: str | None = None, words: list[str] | None = None,
                 user: str = "guest", password: str = "guest", interpreter: Sequence[str] = ()) -> None:
        self._control, theirs = socket.socketpair()
        self._control.settimeout(PATIENCE)
        self._answers = self._control.makefile(encoding="utf-8")
        recording = ["--record", record] if record else []
        stub = os.path.join(TOP, "serve", "run")
        program = [*interpreter, stub] if os.path.exists(stub) else [sys.executable, "-m", "smblease.serve.run_command"]
        command = [*program, "--port", "0", "--share", SHARE, "--leasecheck", leasecheck,
                   "--control", str(theirs.fileno()), *recording, *(words or [])]
        # pylint: disable=consider-using-with  # both are closed by `close`
        self._errors = tempfile.TemporaryFile("w+", encoding="utf-8", errors="replace")
        try:
            self._process = subprocess.Popen(command, stdin=subprocess.DEVNULL, stdout=subprocess.PIPE, stderr=self._errors,
                                             text=True, pass_fds=[theirs.fileno()])
        except OSError as fault:
            raise DriveFault(f"{command[0]}: {fault.strerror}") from None
        finally:
            theirs.close()
        self.verdict: str | None = None
        self.complaints = ""
        self.status: int | None = None
        try:
            self.place = Place("127.0.0.1", self._port(), SHARE, user, password)
        except BaseException:
            # nobody has it yet who could end it
            self.close()
            raise

    @property
    def process(self) -> int:
        return self._process.pid

    def tell(self, line: str) -> bool:
        """A line of control; answers whether it did anything."""
        try:
            self._control.sendall(f"{line}\n".encode())
            answer = self._answers.readline()
        except OSError as fault:
            raise DriveFault(f"the server's control: {fault}") from None
        if answer in ("", "refused\n"):
            raise DriveFault(f"the server's control refused: {line}" if answer else "the server has ended")
        return answer == "done\n"

    def close(self) -> None:
        """Ends it, where that wasn't done before; its verdict is what it printed last."""
        if self.status is not None:
            return
        if self._process.poll() is None:
            self._process.send_signal(signal.SIGTERM)
        try:
            output = self._process.communicate(timeout=600)[0]
        except subprocess.TimeoutExpired:
            self._process.kill()
            output = self._process.communicate()[0]
        self._answers.close()
        self._control.close()
        self.verdict = output.strip().rpartition("\n")[2] or None
        self._errors.seek(0)
        self.complaints, self.status = self._errors.read(), self._process.returncode
        self._errors.close()

    def _port(self) -> int:
        assert self._process.stdout
        ready = select.select([self._process.stdout], [], [], PATIENCE)[0]
        line = self._process.stdout.readline() if ready else ""
        if not line.startswith("port "):
            self.close()
            raise DriveFault(f"the server doesn't begin: {self.complaints.strip()}")
        return int(line.split(" ")[1])


class DrivenServer(ServerProcess, Server):
    """As drive/ has its servers: a fresh one for each schedule, whose timers are ended by lines of control. A connection that is
    closed is forgotten before a later request is done, and so is what it leaves to do. Its files are no longer than those of a
    schedule."""

    is_profiled = True

    def __init__(self, leasecheck: str, record: str | None = None, rules: Rules = Rules(), dialect: Dialect = Dialect.SMB_2_1,
                 encrypts: bool = False) -> None:
        """It speaks this dialect alone; a user asks it where messages are encrypted, else guests, which have no keys."""
        named = name_of(dialect)
        words = ["--rules", str(rules), "--limit", str(LARGEST_FILE), "--min", named, "--max", named]
        if encrypts:
            super().__init__(leasecheck, record, [*words, "--user", f"{USER}%{PASSWORD}", "--encrypt"], USER, PASSWORD)
        else:
            super().__init__(leasecheck, record, words)
        self.place = replace(self.place, dialects=(dialect,), encrypts=encrypts)

    def begin_break_timer(self, process: int | None, guid: bytes, key: bytes) -> None:
        self.tell(f"expire {uuid.UUID(bytes=guid)} {key.hex()}")

    def pass_durable_timer(self, file_ids: list[int]) -> None:
        for file_id in file_ids:
            if self.tell(f"scavenge {file_id}"):
                return

    def close(self) -> None:
        super().close()
        if self.complaints:
            raise DriveFault(f"the server complained: {self.complaints.strip()}")
