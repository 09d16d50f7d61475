"""Dialects of 3 on a private smbd and on serve/run: records are those of 2.1, and tshark reads what is sent."""
from __future__ import annotations

import subprocess
from contextlib import closing
from dataclasses import replace
from functools import partial
from pathlib import Path

import pytest

for package in ("impacket", "cryptography"):
    pytest.importorskip(package, reason=f"there is no package {package}; tools/setup installs it")
# pylint: disable=wrong-import-position
from smblease.drive.connections import Connection  # noqa: E402
from smblease.drive.exploration import Explorer  # noqa: E402
from smblease.drive.kept_servers import KeptServers  # noqa: E402
from smblease.drive.place import DRIVEN  # noqa: E402
from smblease.drive.runner import Runner  # noqa: E402
from smblease.drive.servers import PrivateServer  # noqa: E402
from smblease.schedules import Schedule  # noqa: E402
from tests import needs  # noqa: E402
from tests.drive.commands import ran, tried, with_private_smbd  # noqa: E402
from tests.drive.dumping import capturing  # noqa: E402
from tests.drive.named import named_smbd  # noqa: E402
from tests.paths import SCHEDULES, TESTS, name_of  # noqa: E402

NAMES = ["2.1", "3.0", "3.0.2", "3.1.1"]
ANSWERED = TESTS / "schedules" / "break_answered"
RECORD = (TESTS / "runs" / "break_answered").read_text(encoding="ascii")
ALL_DIALECTS = "[global]\n  server min protocol = SMB2_10\n  server max protocol = SMB3_11\n"
GUESTS = "  guest ok = yes\n  force user = root\n[global]\n  map to guest = bad user\n"


@with_private_smbd
@pytest.mark.parametrize("words", [[], ["--encrypt"]], ids=["signed", "encrypted"])
@pytest.mark.parametrize("dialect", NAMES[1:])
def test_record_of_a_private_smbd(dialect: str, words: list[str]) -> None:
    tried(lambda: same(ran("run", ["--smbd", "--dialect", dialect, *words, ANSWERED])))


def same(had: object) -> None:
    assert had == (0, RECORD, "")


@pytest.mark.parametrize("words", [[], ["--encrypt"]], ids=["guest", "encrypted"])
@pytest.mark.parametrize("dialect", NAMES[1:])
def test_served_at_dialects_of_3(dialect: str, words: list[str]) -> None:
    same(ran("run", ["--served", "--dialect", dialect, *words, ANSWERED]))


def test_served_at_the_dialect_that_is_named() -> None:
    same(ran("run", ["--served", "--dialect", "2.1", ANSWERED]))


@with_private_smbd
@pytest.mark.parametrize(("words", "dialect"), [([], "3.1.1"), (["--dialect", "SMB3_00"], "3.0"),
                                                (["--dialect", "2.1"], "2.1")])
def test_which_dialect_is_spoken(words: list[str], dialect: str) -> None:
    had = ran("run", ["--smbd", "--messages", *words, ANSWERED])
    assert [it for it in had.out.splitlines() if " speaks " in it] == [f"# client {it} speaks dialect {dialect}" for it in (1, 2)]


WANTED = {
    "nothing": "", "the share": "  smb encrypt = required\n", "the server": "[global]\n  smb encrypt = required\n",
    "CCM": "[global]\n  smb encrypt = required\n  server smb3 encryption algorithms = AES-128-CCM\n", "guests": GUESTS,
}


@with_private_smbd
@pytest.mark.parametrize("what", WANTED)
def test_what_a_named_server_wants(what: str) -> None:
    """It is given the greatest dialect, and encryption where it wants that; no word is needed."""
    with named_smbd(WANTED[what], "SMB3_11") as words:
        if what == "guests":
            words[-1] = "nobody-of-this-name%none"
        tried(lambda: same(ran("run", [*words, ANSWERED])))


@with_private_smbd
def test_the_greatest_dialect() -> None:
    with closing(PrivateServer(more=ALL_DIALECTS)) as server:
        for offered in (DRIVEN, DRIVEN[:3], DRIVEN[:2], DRIVEN[:1], DRIVEN[1:2]):
            with closing(Connection(replace(server.place, dialects=offered), bytes(16))) as connection:
                assert connection.dialect is offered[-1]


REFUSED: dict[str, tuple[str, str, list[str], str]] = {
    "no keys": (GUESTS, "SMB3_11", ["--encrypt"], "guests have no keys"),
    "no dialect of 3": ("", "SMB2_10", ["--encrypt"], "wants encryption, and "),
    "no encryption": ("[global]\n  smb encrypt = off\n", "SMB3_00", ["--encrypt"], "wants encryption, and "),
    "AES-256": ("[global]\n  server smb3 encryption algorithms = AES-256-GCM\n", "SMB3_11", ["--encrypt"], "none that both have"),
    "another dialect": ("", "SMB3_00", ["--dialect", "3.1.1"], "has to speak dialect 3.1.1 "),
    "2.1 alone": ("", "SMB3_11", ["--dialect", "2.1"], "has to speak dialect 2.1 "),
    "a share of 2.1": ("  smb encrypt = required\n", "SMB2_10", [], "without encryption, which dialect 2.1"),
}


@with_private_smbd
@pytest.mark.parametrize("why", REFUSED)
def test_what_can_not_be_had(why: str) -> None:
    more, protocol, given, need = REFUSED[why]
    with named_smbd(more, protocol) as words:
        if more == GUESTS:
            words[-1] = "nobody-of-this-name%none"
        had = ran("run", [*words, *given, ANSWERED])
    assert (had.status, had.out, had.faults.count("\n")) == (1, "", 1) and need in had.faults, had


LIVES = """file 616263
file 646566
client 11111111-1111-1111-1111-111111111111
client 22222222-2222-2222-2222-222222222222
connect 1
connect 2
open 1 1 rw rw RWH durable
serve 1
take 1
cut 1
notice 1
connect 1
serve 1
take 1
open 2 1 r rw RH
serve 2
take 1
serve 1
take 1
take 2
open 1 2 rw rw RW
serve 1
take 1
close 1 2
serve 1
take 1
open 1 2 rw rw RW
serve 1
take 1
"""
FIELDS = ("smb2.cmd", "smb2.flags.response", "smb2.tag", "smb2.lease.lease_oplock", "smb2.dh2x.create_guid")
CREATE, BREAK = "5", "18"


def of_versions(path: Path, port: int) -> list[list[str]]:
    """What tshark reads of CREATEs with leases, and of breaks: the command, whether it is an answer, names, epoch, CreateGuid."""
    words = ["tshark", "-r", str(path), "-d", f"tcp.port=={port},nbss", "-Y",
             f"tcp.port=={port} && smb2.lease.lease_oplock", "-T", "fields", *(it for name in FIELDS for it in ("-e", name))]
    said = subprocess.run(words, capture_output=True, text=True, check=True).stdout
    return [line.split("\t") for line in said.splitlines()]


@with_private_smbd
@needs.program("tshark")
@needs.program("dumpcap")
def test_version_2_on_the_wire(program: str, tmp_path: Path) -> None:
    """A new lease has the epoch that was asked with and 1, a break 1 more, and what comes back or is asked again the one that is
    known (3.3.5.9.11, 3.3.4.7, 3.2.4.3.8); the CreateGuid is that of the open."""
    ports: list[int] = []

    def server() -> PrivateServer:
        one = PrivateServer(protocol="SMB3_11")
        ports.append(one.place.port)
        return one

    def check() -> None:
        with capturing(tmp_path / "one.pcapng"):
            assert Runner(program, server).run(Schedule.read(LIVES)).words == "safe"
        rows = of_versions(tmp_path / "one.pcapng", ports[-1])
        guid = rows[0][4]
        assert len(guid) == 36
        expected = [[CREATE, "0", "RqLs,DH2Q", "0x0000", guid], [CREATE, "1", "DH2Q,RqLs", "0x0001", ""],
                    [CREATE, "0", "RqLs,DH2C", "0x0001", guid], [CREATE, "1", "RqLs", "0x0001", ""],
                    [CREATE, "0", "RqLs", "0x0000", ""], [BREAK, "1", "", "0x0002", ""], [CREATE, "1", "RqLs", "0x0001", ""],
                    [CREATE, "0", "RqLs", "0x0000", ""], [CREATE, "1", "RqLs", "0x0001", ""],
                    [CREATE, "0", "RqLs", "0x0001", ""], [CREATE, "1", "RqLs", "0x0002", ""]]
        assert rows == expected
    tried(check)


def explorer(program: str, folder: Path, protocol: str, seed: int) -> Explorer:
    made = folder / protocol
    made.mkdir()
    return Explorer(Runner(program, KeptServers(lambda: PrivateServer(protocol=protocol))), seed, str(made), False)


def alike(one: Explorer, other: Explorer, number: int) -> None:
    assert one.explore(number) == other.explore(number)


@with_private_smbd
@pytest.mark.parametrize("numbers", [range(1, 5), pytest.param(range(5, 61), marks=pytest.mark.long)], ids=["few", "many"])
def test_random_schedules_at_both_dialects(numbers: range, program: str, tmp_path: Path, request: pytest.FixtureRequest) -> None:
    """Each row of 3.1.1 is that of 2.1: what was tried, the verdict, and what explains the record. (Of creates that wait smbd
    does now one first and now another.)"""
    seed = int(request.config.getoption("seed"))
    old, new = (explorer(program, tmp_path, protocol, seed) for protocol in ("SMB2_10", "SMB3_11"))
    with closing(old), closing(new):
        for number in numbers:
            tried(partial(alike, old, new, number))


@with_private_smbd
@pytest.mark.long
@pytest.mark.parametrize("path", SCHEDULES, ids=name_of)
def test_schedule_at_both_dialects(path: Path, program: str) -> None:
    def facts(protocol: str) -> list[str]:
        runner = Runner(program, lambda: PrivateServer(protocol=protocol), skip=True)
        return runner.run(Schedule.read(path.read_text(encoding="ascii", errors="surrogateescape"))).record.facts()

    def check() -> None:
        assert facts("SMB3_11") == facts("SMB2_10")
    tried(check)
