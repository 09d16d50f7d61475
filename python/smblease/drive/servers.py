"""Servers that are driven: one that was named, and a private smbd that is started afresh and ended."""
from __future__ import annotations

import os
import shutil
import signal
import socket
import subprocess
import tempfile
import time
import uuid
from contextlib import nullcontext

from smblease.drive.called import where_from
from smblease.drive.clock import Clocks, library
from smblease.drive.connecting import password_hash
from smblease.drive.faults import DriveFault, Undrivable
from smblease.drive.place import Place, Server, Timers
from smblease.drive.slots import Slots
from smblease.serve.dialects import SMBD_NAMES

SMBD = "/usr/sbin/smbd"
SHARE = "share"
PASSWORD = "private"
FOLDERS = ("private", "lock", "state", "cache", "pid", "ncalrpc", "binddns", SHARE)
# What the known departures (model.py) were fitted to.
FITTED = "smbd 4.17.12 with the configuration of drive/servers.py"
CONFIGURATION = """[global]
  server role = standalone server
  workgroup = PRIVATE
  netbios name = PRIVATE
  interfaces = 127.0.0.1
  bind interfaces only = yes
  disable netbios = yes
  smb ports = {port}
  server min protocol = {protocol}
  server max protocol = {protocol}
  server multi channel support = no
  smb2 leases = yes
  oplocks = yes
  private dir = {folder}/private
  lock directory = {folder}/lock
  state directory = {folder}/state
  cache directory = {folder}/cache
  pid directory = {folder}/pid
  ncalrpc dir = {folder}/ncalrpc
  binddns dir = {folder}/binddns
  passdb backend = smbpasswd:{folder}/private/smbpasswd
  log file = {folder}/log
  log level = {level}
  max log size = 0
  load printers = no
  disable spoolss = yes
  printing = bsd
  printcap name = /dev/null
[share]
  path = {folder}/share
  read only = no
  durable handles = yes
  kernel oplocks = no
  kernel share modes = no
  posix locking = no
  strict locking = no
"""
# The times of smbd, in seconds: a break is waited for 35, and a disconnected open is kept for 960.
BREAK_TIME = 36
DURABLE_TIME = 961
SETTLED = 0.05
PROCESS_PATIENCE = 2.0


class NamedServer(Server):
    """A server that somebody named. Its timers are waited for, and its files have names of their own."""

    stays = True
    timers = Timers.ALL

    def __init__(self, place: Place, break_time: float, slots: Slots | None = None) -> None:
        """`slots` has the one that a run lends while it waits for a timer."""
        self.place = place
        self._slots = slots
        self._break_time = break_time
        # (a timer that is waited for may be shorter than the wait)
        self.patience = 0.75 * break_time or None
        self._prefix = f"leasecheck-{uuid.uuid4()}"

    def name_of(self, file: int) -> str:
        return f"{self._prefix}-{file}"

    def wait_for_end(self, process: int | None) -> None:
        # (it may let go of opens only then)
        time.sleep(SETTLED)

    def begin_break_timer(self, process: int | None, guid: bytes, key: bytes) -> None:
        with self._slots.lent() if self._slots else nullcontext():
            time.sleep(self._break_time)

    def pass_durable_timer(self, file_ids: list[int]) -> None:
        raise Undrivable("the timer of a disconnected open is too long to be waited for")


class PrivateServer(Server):
    """An smbd of one's own on loopback, in a folder of its own, with clocks that can be put forward."""

    timers = Timers.OF_CONNECTION

    def __init__(self, log: str | None = None, protocol: str = "SMB2_10", more: str = "", encrypts: bool = False) -> None:
        """`log` is a file that gets smbd's log, at level 10, when it is ended; `protocol` is the one dialect that it speaks, as
        smb.conf names it; `more` are other lines of that file, those of the share first; `encrypts`: who asks encrypts."""
        if os.geteuid() != 0 or not os.path.exists(SMBD):
            raise DriveFault(f"a private smbd needs root and {SMBD} ({where_from('samba')})")
        clock = library()
        self._log = log
        self._folder = tempfile.mkdtemp(prefix="leasecheck-drive-")
        self.place = Place("127.0.0.1", free_port(), SHARE, "root", PASSWORD, dialects=(SMBD_NAMES[protocol],), encrypts=encrypts)
        self._write_folder(protocol, more)
        self._clocks = Clocks(f"{self._folder}/clocks")
        self._known: set[int] = set()
        self._process = self._start(dict(os.environ, LD_PRELOAD=clock, DRIVE_CLOCK=self._clocks.path))
        try:
            self._wait_for_port()
        except BaseException:
            self.close()
            raise

    def new_process(self) -> int | None:
        until = time.monotonic() + PROCESS_PATIENCE
        while True:
            now = self._children()
            new = [it for it, name in now.items() if it not in self._known and name == "smbd"]
            # (where a session was tried again, the process of the former connection is about to end)
            if len(new) == 1 or time.monotonic() > until:
                break
            time.sleep(0.002)
        self._known = set(now)
        if len(new) != 1:
            raise DriveFault(f"{len(new)} processes of smbd came with one connection")
        return new[0]

    def wait_for_end(self, process: int | None) -> None:
        until = time.monotonic() + 25
        while process in self._children():
            if time.monotonic() > until:
                raise DriveFault("smbd's process of a closed connection doesn't end")
            time.sleep(0.002)

    def begin_break_timer(self, process: int | None, guid: bytes, key: bytes) -> None:
        self._clocks.put_forward(process or 0, BREAK_TIME)

    def end_break_timer(self, process: int | None) -> None:
        self._clocks.put_forward(process or 0, 0)

    def pass_durable_timer(self, file_ids: list[int]) -> None:
        keepers = [it for it, name in self._children().items() if "scavenger" in name]
        for keeper in keepers:
            self._clocks.put_forward(keeper, DURABLE_TIME)
            # A stop and its end wake a process out of its wait.
            os.kill(keeper, signal.SIGSTOP)
            os.kill(keeper, signal.SIGCONT)
        time.sleep(SETTLED)
        for keeper in keepers:
            self._clocks.put_forward(keeper, 0)

    def content(self, name: str) -> bytes | None:
        try:
            # A changed access time would make smbd refuse a durable reconnect.
            opened = os.open(f"{self._folder}/{SHARE}/{name}", os.O_RDONLY | os.O_NOATIME)
        except OSError as fault:
            raise DriveFault(f"file {name} can't be looked at: {fault.strerror}") from None
        with open(opened, "rb") as stream:
            return stream.read()

    def close(self) -> None:
        # The group is the one that was made for this smbd.
        for sign in (signal.SIGTERM, signal.SIGKILL):
            try:
                os.killpg(self._process.pid, sign)
                self._process.wait(timeout=10)
                break
            except ProcessLookupError:
                break
            except subprocess.TimeoutExpired:
                continue
        self._clocks.close()
        try:
            if self._log:
                shutil.copyfile(f"{self._folder}/log", self._log)
        except OSError as fault:
            raise DriveFault(f"{self._log}: {fault.strerror}") from None
        finally:
            shutil.rmtree(self._folder, ignore_errors=True)

    def _write_folder(self, protocol: str, more: str) -> None:
        for name in FOLDERS:
            os.mkdir(f"{self._folder}/{name}", 0o755)
        with open(f"{self._folder}/smb.conf", "w", encoding="utf-8") as text:
            text.write(CONFIGURATION.format(folder=self._folder, port=self.place.port, protocol=protocol,
                                            level=10 if self._log else 1) + more)
        with open(f"{self._folder}/private/smbpasswd", "w", encoding="utf-8") as text:
            text.write(f"root:0:{32 * 'X'}:{password_hash(PASSWORD)}:[U          ]:LCT-00000001:\n")

    def _start(self, environment: dict[str, str]) -> subprocess.Popen[bytes]:
        with open(f"{self._folder}/output", "wb") as output:
            return subprocess.Popen([SMBD, "--foreground", "--no-process-group", "-s", f"{self._folder}/smb.conf"],
                                    stdin=subprocess.DEVNULL, stdout=output, stderr=subprocess.STDOUT,
                                    env=environment, start_new_session=True)

    def _wait_for_port(self) -> None:
        until = time.monotonic() + 25
        while time.monotonic() < until and self._process.poll() is None:
            try:
                socket.create_connection((self.place.host, self.place.port), 5).close()
                break
            except OSError:
                time.sleep(0.005)
        else:
            raise DriveFault("smbd doesn't start")

    def is_prepared(self) -> None:
        until = time.monotonic() + 25
        while "smbd" in self._children().values():
            if time.monotonic() > until:
                raise DriveFault("smbd doesn't come to rest")
            time.sleep(0.002)
        self._known = set(self._children())

    def _children(self) -> dict[int, str]:
        """smbd's own processes with their names, those that have ended left out."""
        found: dict[int, str] = {}
        for text in _line(f"/proc/{self._process.pid}/task/{self._process.pid}/children").split():
            # (a name is in parentheses, and the state stands behind them)
            head, _, rest = _line(f"/proc/{text}/stat").rpartition(")")
            if rest and not rest.startswith(" Z"):
                found[int(text)] = head.partition("(")[2]
        return found


def _line(path: str) -> str:
    try:
        with open(path, encoding="utf-8", errors="replace") as text:
            return text.read().strip()
    except OSError:
        return ""


def free_port() -> int:
    with socket.socket() as one:
        one.bind(("127.0.0.1", 0))
        return int(one.getsockname()[1])
