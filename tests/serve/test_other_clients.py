"""What smbclient and smbtorture do, which need nothing of impacket; the server has it, or the standard library alone."""
from __future__ import annotations

import random
import subprocess
from collections.abc import Sequence
from pathlib import Path

import pytest

from smblease.serve.server_process import ServerProcess
from smblease.serve.torture_command import run_test
from smblease.serve.torture_suites import Kind
from tests import needs
from tests.serve.conftest import Start
from tests.serve.listened import Listened
from tests.serve.test_command_line import BARE

TORTURED = ["smb2.lease.request", "smb2.lease.upgrade", "smb2.lease.upgrade2", "smb2.lease.statopen3", "smb2.lease.rename_wait",
            "smb2.lease.duplicate_open", "smb2.durable-open.delete_on_close1", "smb2.durable-open.lock-lease",
            "smb2.durable-open.oplock", "smb2.durable-open.reopen2-lease", "smb2.lease.complex1", "smb2.lease.timeout-disconnect",
            "smb2.lease.breaking1", "smb2.lease.breaking6", "smb2.lease.upgrade3", "smb2.durable-open.read-only",
            "smb2.lock.valid-request", "smb2.lock.cancel-logoff", "smb2.lock.stacking"]
OF_A_USER = ["smb2.durable-open.reopen1a", "smb2.durable-open.reopen1a-lease", "smb2.session.reauth1", "smb2.session.reauth2",
             "smb2.session.reauth3", "smb2.session.reauth6", "smb2.session.bind_negative_smb210s",
             "smb2.session.bind_negative_smb210d"]
AT_3 = ["smb2.connect", "smb2.tcon", "smb2.read.eof", "smb2.lease.upgrade3", "smb2.lease.breaking3", "smb2.lease.oplock",
        "smb2.durable-open.reopen2-lease", "smb2.compound.related1", "smb2.session.reauth6", "smb2.session.two_logoff",
        "smb2.session.bind_negative_smb3to2s", "smb2.credits.single_req_credits_granted"]
USER = "somebody%secret"


def smbclient(server: ServerProcess | Listened, commands: str, user: str = "guest%",
              words: Sequence[str] = ()) -> "subprocess.Popen[str]":
    place = server.place
    command = ["smbclient", f"//{place.host}/{place.share}", "-p", str(place.port), "-U", user, "-m", "SMB2_10", *words]
    return subprocess.Popen([*command, "-c", commands], stdin=subprocess.DEVNULL, stdout=subprocess.PIPE,
                            stderr=subprocess.STDOUT, text=True)


def ended(client: "subprocess.Popen[str]") -> tuple[int, str]:
    output, _ = client.communicate(timeout=90)
    return client.returncode, output


@needs.program("smbtorture")
@pytest.mark.parametrize("name, words, interpreter", [
    *(pytest.param(it, [], (), id=it) for it in TORTURED),
    pytest.param("smb2.lease.upgrade3", ["--rules", "by-client,whole"], (), id="smb2.lease.upgrade3-by_client"),
    pytest.param(TORTURED[0], [], BARE, id=f"{TORTURED[0]}-standard_library_alone"),
])
def test_smbtorture(program: str, name: str, words: list[str], interpreter: tuple[str, ...]) -> None:
    row = run_test(name, lambda _: ServerProcess(program, words=words, interpreter=interpreter), 60.0)
    assert row.kind is Kind.PASSED, row.text


@needs.program("smbtorture")
@needs.package("impacket")
@pytest.mark.parametrize("name, words", [
    *(pytest.param(it, ["--guests"], id=it) for it in OF_A_USER),
    *(pytest.param(it, [], id=f"{it}-without_guests") for it in ("smb2.durable-open.reopen1a", "smb2.session.reauth6")),
])
def test_smbtorture_of_a_user(program: str, name: str, words: list[str]) -> None:
    """A session that is named by the next one of its user is over; one that authenticates again is the same."""
    row = run_test(name, lambda _: ServerProcess(program, None, ["--user", USER, *words], *USER.split("%")), 60.0)
    assert row.kind is Kind.PASSED, row.text


@needs.program("smbtorture")
@needs.package("impacket")
@needs.package("cryptography")
@pytest.mark.parametrize("name", AT_3)
def test_smbtorture_at_3_1_1(program: str, name: str) -> None:
    words = ["--max", "3.1.1", "--user", USER, "--guests"]
    row = run_test(name, lambda _: ServerProcess(program, None, words, *USER.split("%")), 60.0, "3.1.1")
    assert row.kind is Kind.PASSED, row.text


@needs.program("smbclient")
@pytest.mark.parametrize("user, words, interpreter", [
    pytest.param("guest%", [], (), id="a_guest"), pytest.param("guest%", [], BARE, id="a_guest-standard_library_alone"),
    pytest.param(USER, ["--user", USER], (), id="a_user", marks=needs.package("impacket")),
    pytest.param(USER, ["--user", USER, "--guests"], (), id="a_user_beside_guests", marks=needs.package("impacket")),
])
def test_smbclient(start: Start, tmp_path: Path, user: str, words: list[str], interpreter: tuple[str, ...]) -> None:
    """A file goes there and comes back, is listed and deleted."""
    server = start(*words, record=tmp_path / "record", interpreter=interpreter)
    data = random.Random(1).randbytes(300000)
    given, got = tmp_path / "given", tmp_path / "got"
    given.write_bytes(data)
    status, output = ended(smbclient(server, f"put {given} a.dat; put {given} a.dat; get a.dat {got}; mkdir d; ls; "
                                             "rename a.dat d\\b.dat; cd d; ls; del b.dat; ls", user))
    assert status == 0, output
    assert got.read_bytes() == data
    assert [name for name in ("a.dat ", "  d  ", "b.dat ") if name not in output] == [], output
    assert output.rpartition("b.dat")[2].count("  .") == 2, "the folder holds nothing in the end"
    server.close()
    assert server.verdict == "safe"


@needs.program("smbclient")
def test_two_of_smbclient(served: ServerProcess, tmp_path: Path) -> None:
    """Two at a time, each with files of its own."""
    turns = range(10)
    for name in "ab":
        (tmp_path / name).write_bytes(name.encode() * 200000)
    clients = [smbclient(served, "".join(f"put {tmp_path}/{name} {name}{it}; get {name}{it} {tmp_path}/{name}{it}; "
                                         for it in turns) + "ls") for name in "ab"]
    assert [ended(it)[0] for it in clients] == [0, 0]
    assert all((tmp_path / f"{name}{it}").read_bytes() == name.encode() * 200000 for name in "ab" for it in turns)


@needs.program("smbclient")
@needs.package("impacket")
@pytest.mark.parametrize("user, failures, status", [
    pytest.param("somebody%wrong", 1, 1, id="wrong"), pytest.param(USER, 0, 0, id="right"),
    pytest.param("guest%", 0, 0, id="guest"),
])
def test_a_password(start: Start, user: str, failures: int, status: int) -> None:
    """A named user is refused with a wrong one, and guests are served where they are let in."""
    ends, output = ended(smbclient(start("--user", USER, "--guests"), "ls", user))
    assert (output.count("NT_STATUS_LOGON_FAILURE"), ends) == (failures, status), output


@needs.program("smbclient")
def test_smbclient_puts_one_name_again_and_again(served: ServerProcess, tmp_path: Path) -> None:
    given, got = tmp_path / "given", tmp_path / "got"
    given.write_bytes(b"given")
    status, output = ended(smbclient(served, f"put {given} name; " * 260 + f"get name {got}"))
    assert (status, "NT_STATUS" in output, got.read_bytes()) == (0, False, b"given"), output[-300:]
