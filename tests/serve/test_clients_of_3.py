"""What smbclient and impacket do at each dialect: plain, signed and encrypted."""
from __future__ import annotations

import io
import random
import subprocess
from pathlib import Path
from typing import TYPE_CHECKING, Any

import pytest

from smblease.serve.server_process import ServerProcess
from tests import needs
from tests.serve.conftest import Start
from tests.serve.modern import EVERY, PASSWORD, USER
from tests.serve.negotiating import DIALECTS
from tests.serve.test_other_clients import ended

if TYPE_CHECKING:
    from impacket.smb3 import SMB3

pytestmark = [needs.package("impacket"), needs.package("cryptography")]
NEW = [it for it in DIALECTS if it.startswith("SMB3")]
SIGNED, ENCRYPTED = "--option=clientsigning=required", "--client-protection=encrypt"
DATA = random.Random(1).randbytes(300000)


def smbclient(server: ServerProcess, dialect: str, commands: str, *words: str,
              user: str = f"{USER}%{PASSWORD}") -> tuple[int, str]:
    place = server.place
    command = ["smbclient", f"//{place.host}/{place.share}", "-p", str(place.port), "-U", user, "-m", dialect,
               f"--option=clientminprotocol={dialect}", *words, "-c", commands]
    # pylint: disable-next=consider-using-with  # `ended` waits for it
    return ended(subprocess.Popen(command, stdin=subprocess.DEVNULL, stdout=subprocess.PIPE, stderr=subprocess.STDOUT, text=True))


def goes_there_and_back(server: ServerProcess, folder: Path, dialect: str, *words: str, user: str = f"{USER}%{PASSWORD}") -> None:
    """A file, which is listed too."""
    given, got = folder / "given", folder / "got"
    given.write_bytes(DATA)
    name = f"{dialect}.dat"
    status, output = smbclient(server, dialect, f"put {given} {name}; get {name} {got}; ls; del {name}", *words, user=user)
    assert (status, name in output, got.read_bytes()) == (0, True, DATA), output


@needs.program("smbclient")
@pytest.mark.parametrize("dialect, words", [
    *(pytest.param(it, [], id=f"{it}-plain") for it in DIALECTS),
    *(pytest.param(it, [SIGNED], id=f"{it}-signed") for it in DIALECTS),
    *(pytest.param(it, [ENCRYPTED], id=f"{it}-encrypted") for it in NEW),
    *(pytest.param("SMB3_11", [SIGNED, f"--option=client smb3 signing algorithms={it}"], id=it)
      for it in ("AES-128-GMAC", "AES-128-CMAC", "HMAC-SHA256")),
    *(pytest.param("SMB3_11", [ENCRYPTED, f"--option=client smb3 encryption algorithms={it}"], id=it)
      for it in ("AES-128-CCM", "AES-128-GCM", "AES-256-CCM", "AES-256-GCM"))])
def test_smbclient(every: ServerProcess, tmp_path: Path, dialect: str, words: list[str]) -> None:
    goes_there_and_back(every, tmp_path, dialect, *words)


@needs.program("smbclient")
@pytest.mark.parametrize("dialect", DIALECTS)
def test_smbclient_of_a_guest(every: ServerProcess, tmp_path: Path, dialect: str) -> None:
    goes_there_and_back(every, tmp_path, dialect, user="guest%")


@needs.program("smbclient")
def test_smbclient_where_encryption_is_required(start: Start, tmp_path: Path) -> None:
    """It needs no word for it; before 3.0 there is none."""
    server = start(*EVERY, "--encrypt", record=tmp_path / "record")
    for dialect in NEW:
        goes_there_and_back(server, tmp_path, dialect)
    for dialect in ("SMB2_02", "SMB2_10"):
        status, output = smbclient(server, dialect, "ls")
        assert (status, "NT_STATUS_ACCESS_DENIED" in output) == (1, True), output
    server.close()
    assert server.verdict == "safe"


@needs.program("smbclient")
def test_the_list_of_shares(every: ServerProcess) -> None:
    """At 3.1.1, encrypted, over the pipe of IPC$."""
    place = every.place
    command = ["smbclient", "-L", place.host, "-p", str(place.port), "-U", f"{USER}%{PASSWORD}", "-m", "SMB3_11", ENCRYPTED]
    done = subprocess.run(command, stdin=subprocess.DEVNULL, capture_output=True, text=True, timeout=90, check=False)
    assert done.returncode == 0 and place.share in done.stdout, done.stdout + done.stderr


def impacket_client(server: ServerProcess, dialect: int, encrypts: bool) -> "SMB3":
    """At 3.1.1 Debian's begins the hash of a session with zeros, and not with its connection's; and it encrypts where it is told
    to, which at 3.0 it does by itself."""
    from impacket.smb3 import SMB3  # pylint: disable=import-outside-toplevel

    class Client(SMB3):  # type: ignore[misc]
        def login(self, *words: Any, **named: Any) -> Any:
            self._Session["PreauthIntegrityHashValue"] = self._Connection["PreauthIntegrityHashValue"]
            self._Connection["SupportsEncryption"] = encrypts
            return super().login(*words, **named)
    place = server.place
    return Client(place.host, place.host, sess_port=place.port, timeout=20, preferredDialect=dialect)


@pytest.mark.parametrize("encrypts", [False, True], ids=["signed", "encrypted"])
@pytest.mark.parametrize("dialect", [0x0300, 0x0311], ids=["3.0", "3.1.1"])
def test_impacket(start: Start, every: ServerProcess, dialect: int, encrypts: bool) -> None:
    from impacket.smbconnection import SMBConnection  # pylint: disable=import-outside-toplevel
    server = start(*EVERY, "--encrypt") if encrypts else every
    client = SMBConnection(existingConnection=impacket_client(server, dialect, encrypts))
    assert client.getDialect() == dialect
    client.login(USER, PASSWORD)
    got = io.BytesIO()
    client.putFile(server.place.share, "impacket.dat", io.BytesIO(DATA).read)
    client.getFile(server.place.share, "impacket.dat", got.write)
    names = [it.get_longname() for it in client.listPath(server.place.share, "*")]
    client.deleteFile(server.place.share, "impacket.dat")
    client.close()
    assert (got.getvalue(), "impacket.dat" in names) == (DATA, True)
