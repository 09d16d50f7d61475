"""Who asks a server that is named: forms of a user, and where a password is looked for, none of which is the command line."""
from __future__ import annotations

import os
import pty
import select
import signal
import subprocess
import time
from pathlib import Path

import pytest

pytest.importorskip("impacket", reason="there is no package impacket; tools/setup installs it")
# pylint: disable=wrong-import-position
from smblease.drive import connections  # noqa: E402
from smblease.drive.connections import Connection  # noqa: E402
from smblease.drive.faults import DriveFault, Usage  # noqa: E402
from smblease.drive.login import Login, login_of  # noqa: E402
from smblease.drive.place import Place  # noqa: E402
from smblease.serve.dialects import Dialect  # noqa: E402
from tests.drive.commands import ran, with_private_smbd  # noqa: E402
from tests.drive.named import named_proved, named_smbd  # noqa: E402
from tests.paths import TESTS, TOP, built_program  # noqa: E402

USERS = {
    "games%secret": Login("games", "secret"), "OFFICE\\games%secret": Login("games", "secret", "OFFICE"),
    "OFFICE/games%secret": Login("games", "secret", "OFFICE"), "games%": Login("games", ""),
    "games%se%cret": Login("games", "se%cret"), "games": Login("games", "of the environment"),
}
SCHEDULE = TESTS / "schedules" / "break_answered"


def nobody(_: str) -> None:
    """There is no terminal."""


@pytest.mark.parametrize("user", USERS)
def test_user(user: str) -> None:
    assert login_of(user, None, False, {"PASSWD": "of the environment"}, nobody) == USERS[user]


def test_file_of_credentials(tmp_path: Path) -> None:
    """As smbclient has it: a password keeps what follows one space."""
    file = tmp_path / "credentials"
    file.write_text("username = games\npassword =  a = b\ndomain=OFFICE\n# nothing\n", encoding="ascii")
    assert login_of(None, str(file), False, {"PASSWD": "other"}, nobody) == Login("games", " a = b", "OFFICE")


def test_password_that_is_asked_for() -> None:
    assert login_of("games", None, False, {}, lambda user: f"of {user}") == Login("games", "of games")
    with pytest.raises(Usage, match="the password of games is needed"):
        login_of("games", None, False, {}, nobody)


def test_ticket() -> None:
    """It says who asks; no password is looked for."""
    assert login_of(None, None, True, {}, nobody) == Login("", by_ticket=True)
    assert login_of("OFFICE/games", None, True, {}, nobody) == Login("games", "", "OFFICE", True)


class Ticketed:
    """A protocol that takes note of a login by a ticket."""

    given: tuple[object, ...] = ()
    dialect = Dialect.SMB_2_1

    def __init__(self, *_: object) -> None:
        """It is connected."""

    def kerberosLogin(self, user: str, password: str, domain: str, **tickets: object) -> None:  # pylint: disable=invalid-name
        Ticketed.given = (user, password, domain, tickets)

    def connectTree(self, _: str) -> int:  # pylint: disable=invalid-name
        return 1


@pytest.mark.parametrize("ticket", [None, {"ticket": 1}])
def test_login_by_a_ticket(ticket: object, monkeypatch: pytest.MonkeyPatch) -> None:
    """The ticket of the cache is the one for this server; where there is none that is said."""
    asked: list[tuple[str, str, str]] = []

    def parse(domain: str, user: str, target: str) -> tuple[str, str, object, object]:
        asked.append((domain, user, target))
        return "OFFICE", "games", None, ticket
    monkeypatch.setattr(connections, "Protocol", Ticketed)
    monkeypatch.setattr("impacket.krb5.ccache.CCache.parseFile", parse)
    place = Place("files.office", 445, "share", "", "", "", True)
    if ticket is None:
        with pytest.raises(DriveFault, match="a ticket for the server is needed"):
            Connection(place, bytes(16))
    else:
        Connection(place, bytes(16))
        assert Ticketed.given == ("games", "", "OFFICE", {"TGT": None, "TGS": ticket})
    assert asked == [("", "", "cifs/files.office")]


@with_private_smbd
def test_server_by_a_file_of_credentials(tmp_path: Path) -> None:
    file = tmp_path / "credentials"
    with named_smbd() as words:
        user, _, password = words.pop().partition("%")
        file.write_text(f"username = PRIVATE/{user}\npassword = {password}\n", encoding="ascii")
        had = ran("run", [*words[:-1], "-A", file, SCHEDULE])
        assert (had.status, had.out.splitlines()[-1]) == (0, "# safe")
        file.write_text(f"username = {user}\npassword = wrong\n", encoding="ascii")
        had = ran("run", [*words[:-1], "-A", file, SCHEDULE])
    assert (had.status, had.faults.count("\n")) == (1, 1) and "STATUS_LOGON_FAILURE" in had.faults


def test_password_at_a_terminal(program: str) -> None:
    """It is asked for where it stands nowhere, and isn't shown."""
    with named_proved(program, "--user", "games%secret") as words:
        ours, theirs = pty.openpty()
        # (of a session without a terminal the first one that is opened is its own)
        run = [str(TOP / "drive" / "run"), "--leasecheck", built_program(), *words[:-1], "OFFICE\\games", str(SCHEDULE)]
        command = ["sh", "-c", f'exec "$0" "$@" <{os.ttyname(theirs)}', *run]
        with subprocess.Popen(command, stdout=subprocess.PIPE, stderr=subprocess.PIPE, text=True,
                              start_new_session=True) as process:
            shown = os.read(ours, 100).decode() if select.select([ours], [], [], 30)[0] else ""
            os.write(ours, b"secret\n")
            out, faults = process.communicate(timeout=60)
        os.close(ours)
        os.close(theirs)
    assert shown.startswith("Password of games: ")
    assert (process.returncode, out.splitlines()[-1:], faults) == (0, ["# safe"], "")


def is_gone(group: int, seconds: float) -> bool:
    """Whether no process of a group is left after so many seconds at most."""
    until = time.monotonic() + seconds
    while time.monotonic() < until:
        try:
            os.killpg(group, 0)
        except ProcessLookupError:
            return True
        time.sleep(0.05)
    return False


@pytest.mark.parametrize("jobs", ["1", "3"])
def test_interruption(jobs: str, tmp_path: Path) -> None:
    """Ctrl-C: the status of a shell, what is kept, and how to go on with that; no process is left."""
    command = [str(TOP / "drive" / "explore"), "--leasecheck", built_program(), "--served", "--seed", "1", "--count", "500",
               "--jobs", jobs, "--folder", str(tmp_path)]
    with subprocess.Popen(command, stdout=subprocess.PIPE, stderr=subprocess.PIPE, text=True, start_new_session=True) as process:
        table, until = tmp_path / "table", time.monotonic() + 60
        while time.monotonic() < until and (not table.exists() or table.read_text(encoding="ascii").count("\n") < 4):
            time.sleep(0.05)
        # as a terminal does: to all of them
        os.killpg(process.pid, signal.SIGINT)
        out, faults = process.communicate(timeout=60)
    rows = table.read_text(encoding="ascii").splitlines()[2:]
    assert (process.returncode, faults) == (130, "")
    assert out.splitlines()[-1] == f"interrupted; the same words with --resume go on after these {len(rows)} of 500"
    assert 2 <= len(rows) < 500
    assert is_gone(process.pid, 10)
