"""How serve/run is refused, how it ends, and what its record says then."""
from __future__ import annotations

import os
import signal
import socket
import subprocess
import sys
import time
from pathlib import Path

import pytest

from smblease import CreateAnswer, LeaseState, Status
from smblease.serve.server_process import ServerProcess
from tests import needs
from tests.paths import TOP
from tests.serve.conftest import Connect, Start
from tests.serve.requests import KEY, OTHER_KEY, acknowledgment, create, leased, read, write

RUN = TOP / "serve/run"
PLACE = ["--port", "0", "--share", "s"]
# Python with the standard library alone: no folder of packages is looked into.
BARE = (sys.executable, "-I", "-S")
NO_IMPACKET = "serve/run: impacket is missing, which --user needs: tools/setup installs it\n"
NO_CRYPTOGRAPHY = "serve/run: cryptography is missing, which --max 3.1.1 needs: tools/setup installs it\n"
ODD = (sys.executable, str(TOP / "tests/serve/odd_servers.py"))


def run(program: str, *words: str, interpreter: tuple[str, ...] = ()) -> "subprocess.CompletedProcess[str]":
    return subprocess.run([*interpreter, RUN, "--leasecheck", program, *words], stdin=subprocess.DEVNULL, capture_output=True,
                          text=True, timeout=60, check=False)


def wait_for_end(server: ServerProcess) -> None:
    """Until it has ended by itself, before `close` would end it."""
    until = time.monotonic() + 20
    while Path(f"/proc/{server.process}/status").read_text(encoding="utf-8").find("State:\tZ") < 0 and time.monotonic() < until:
        time.sleep(0.01)


@pytest.mark.parametrize("words, status, beginning", [
    pytest.param([], 2, "usage: ", id="nothing"),
    pytest.param(["--port", "0", "--share", "a\\b"], 2, "serve/run: --share", id="--share"),
    pytest.param(["--port", "70000", "--share", "s"], 2, "serve/run: --port", id="--port"),
    pytest.param([*PLACE, "--user", "u"], 2, "serve/run: --user", id="--user"),
    pytest.param([*PLACE, "--password-file", "/dev/null"], 2, "serve/run: --password-file", id="--password-file"),
    pytest.param([*PLACE, "--user", "u%p", "--password-file", "/dev/null"], 2, "serve/run: --user", id="two passwords"),
    pytest.param([*PLACE, "--user", "u", "--password-file", "/dev/null"], 1, "serve/run: /dev/null", id="no password"),
    pytest.param([*PLACE, "--user", "u", "--password-file", "/nowhere"], 1, "serve/run: /nowhere", id="no file"),
    pytest.param([*PLACE, "--address", "nowhere"], 2, "serve/run: --address", id="--address"),
    pytest.param([*PLACE, "--rules", "whole"], 2, "serve/run: --rules: 'whole'", id="--rules"),
    pytest.param([*PLACE, "--json"], 2, "serve/run: --json", id="--json"),
    pytest.param([*PLACE, "--log", "/nowhere/log"], 1, "serve/run: /nowhere/log", id="--log"),
    pytest.param([*PLACE, "--seed", "-1"], 2, "serve/run: --seed", id="--seed"),
    pytest.param([*PLACE, "--limit", "0"], 2, "serve/run: --limit", id="--limit"),
    pytest.param([*PLACE, "--max", "4"], 2, "serve/run: --max is one of 2.0.2, ", id="--max"),
    pytest.param([*PLACE, "--min", "SMB4", "--max", "3.0"], 2, "serve/run: --min is one of", id="--min"),
    pytest.param([*PLACE, "--min", "3.0"], 2, "serve/run: --min 3.0 is above --max 2.1\n", id="--min above --max"),
    pytest.param([*PLACE, "--max", "2.0.2"], 2, "serve/run: --min 2.1 is above --max 2.0.2\n", id="--max below --min"),
    pytest.param([*PLACE, "--encrypt", "--max", "3.0"], 2, "serve/run: --encrypt goes with --user", id="--encrypt of guests"),
    pytest.param([*PLACE, "--encrypt", "--max", "3.0", "--user", "u%p", "--guests"], 2, "serve/run: --encrypt goes with --user",
                 id="--encrypt and guests"),
    pytest.param([*PLACE, "--writable"], 2, "serve/run: --writable", id="--writable"),
    pytest.param([*PLACE, "--break-timer", "0"], 2, "serve/run: timers", id="--break-timer"),
    pytest.param([*PLACE, "--session-timer", "0"], 2, "serve/run: timers", id="--session-timer"),
    pytest.param([*PLACE, "--control", "77"], 2, "serve/run: --control", id="--control"),
    pytest.param([*PLACE, "--folder", "/nowhere"], 1, "serve/run: /nowhere", id="--folder"),
    pytest.param([*PLACE, "--record", "/nowhere/record"], 1, "serve/run: /nowhere/record", id="--record"),
    pytest.param([*PLACE, "--record", "/dev/null", "--leasecheck", "/nowhere/program"], 1, "serve/run: /nowhere/program",
                 id="--leasecheck"),
])
def test_refused(program: str, words: list[str], status: int, beginning: str) -> None:
    done = run(program, *words)
    assert (done.returncode, done.stdout, done.stderr[:len(beginning)]) == (status, "", beginning)
    assert words == [] or done.stderr.count("\n") == 1


def test_a_port_that_is_taken(program: str) -> None:
    with socket.socket() as one:
        one.bind(("127.0.0.1", 0))
        one.listen()
        port = str(one.getsockname()[1])
        done = run(program, "--port", port, "--share", "s")
    beginning = f"serve/run: 127.0.0.1, port {port}"
    assert (done.returncode, done.stdout, done.stderr[:len(beginning)]) == (1, "", beginning)


def test_a_user_without_impacket(program: str) -> None:
    """There is none, and a line says so."""
    assert subprocess.run([*BARE, "-c", "import impacket"], capture_output=True, check=False).returncode == 1
    done = run(program, *PLACE, "--user", "u%p", interpreter=BARE)
    assert (done.returncode, done.stdout, done.stderr) == (1, "", NO_IMPACKET)


def test_dialects_of_3_without_cryptography(program: str) -> None:
    """There is none, and a line says so."""
    assert subprocess.run([*BARE, "-c", "import cryptography"], capture_output=True, check=False).returncode == 1
    done = run(program, *PLACE, "--max", "3.1.1", interpreter=BARE)
    assert (done.returncode, done.stdout, done.stderr) == (1, "", NO_CRYPTOGRAPHY)


@needs.package("impacket")
@needs.package("cryptography")
def test_encryption_without_a_dialect_of_3(program: str) -> None:
    done = run(program, *PLACE, "--user", "u%p", "--encrypt")
    assert (done.returncode, done.stderr) == (2, "serve/run: --encrypt goes with a --max of 3.0 or more\n")


@needs.package("impacket")
def test_want_of_memory(program: str, connect: Connect) -> None:
    """Where the manager finds none all connections are cut, and all opens are gone; who comes then is served by a new manager."""
    from tests.serve.wire_client import Closed, contexts_of  # pylint: disable=import-outside-toplevel
    server = ServerProcess(program, interpreter=(*ODD, "forgetful"))
    clients = [connect(server) for _ in range(3)]
    clients[0].open(leased("file", KEY, "RWH", durable=True))
    number = clients[1].send(create("file"))
    assert clients[1].receive().status == Status.PENDING
    clients[2].send(create("other"))
    for client in clients:
        with pytest.raises((Closed, ConnectionError)):
            client.answer_to(number + 100)
    one = connect(server)
    assert CreateAnswer.read(contexts_of(one.ask(leased("file", KEY, "RWH")))).state == LeaseState.of("RWH")
    server.close()
    assert (server.status, server.complaints.count("\n"), "no memory" in server.complaints) == (0, 1, True)


@pytest.mark.parametrize("number", [signal.SIGINT, signal.SIGTERM, signal.SIGHUP, signal.SIGQUIT])
def test_a_signal_ends_it(start: Start, connect: Connect, tmp_path: Path, number: signal.Signals) -> None:
    """The record, fact by fact, and its verdict."""
    server = start(record=tmp_path / "record")
    one = connect(server)
    one.ask(write(one.open(create("file")), 0, b"x"))
    os.kill(server.process, number)
    wait_for_end(server)
    server.close()
    facts = [it for it in (tmp_path / "record").read_text(encoding="utf-8").splitlines() if not it.startswith("#")]
    assert facts == ["joined 1", "start 1 -", "opened 1 1", "sent 1", "wrote 1 1 1 0 78 through", "changed 1 1 1 0 78", "sent 1"]
    assert server.verdict == "safe"


def test_a_signal_that_comes_at_once(program: str) -> None:
    """As soon as the port is printed it ends as it does later."""
    found = []
    for _ in range(5):
        server = ServerProcess(program)
        server.close()
        found.append(server.status)
    assert found == [0] * 5


def test_a_signal_that_it_was_started_to_pass_over(start: Start, connect: Connect) -> None:
    """As nohup does for SIGHUP."""
    before = signal.signal(signal.SIGHUP, signal.SIG_IGN)
    try:
        server = start()
    finally:
        signal.signal(signal.SIGHUP, before)
    os.kill(server.process, signal.SIGHUP)
    assert connect(server).status(create("file")) == Status.SUCCESS


def test_a_manager_that_is_wrong(program: str, connect: Connect, tmp_path: Path) -> None:
    """Two clients that are both granted what one may have: the record breaks the first rule."""
    server = ServerProcess(program, str(tmp_path / "record"), interpreter=(*ODD, "wrong"))
    for key in (KEY, OTHER_KEY):
        connect(server).open(leased("file", key, "RWH"))
    server.close()
    words = (server.verdict or "").split(" ")
    assert (words[0], words[-1], server.status) == ("unsafe", "1", 3)


@pytest.mark.parametrize("words, state", [([], "R"), (["--rules", "profile"], "RH"), (["--rules", "by-key,as-free"], "RH")],
                         ids=["whole", "profile", "as free"])
def test_how_a_lease_rises(start: Start, connect: Connect, words: list[str], state: str) -> None:
    """A lease of R whose client asks for RWH beside a lease of another."""
    from tests.serve.wire_client import contexts_of  # pylint: disable=import-outside-toplevel
    server = start(*words)
    one, other = connect(server), connect(server)
    one.open(leased("file", KEY, "R"))
    other.open(leased("file", OTHER_KEY, "RWH"))
    answer = one.ask(leased("file", KEY, "RWH"))
    assert CreateAnswer.read(contexts_of(answer)).state == LeaseState.of(state)


@pytest.mark.parametrize("words, expected", [([], Status.SUCCESS), (["--rules", "profile"], Status.PENDING)],
                         ids=["by key", "by client"])
def test_which_requests_wait_for_one_another(start: Start, connect: Connect, words: list[str], expected: Status) -> None:
    """A client's write under its lease, behind its create without one, which waits for that lease to break."""
    one = connect(start(*words))
    opened = one.open(leased("file", KEY, "RWH"))
    waits, flush = one.send(create("file")), one.send(write(opened))
    messages = [one.receive() for _ in range(3)]
    assert {it.identifier: it.status for it in messages}[flush] == expected
    one.ask(acknowledgment(KEY, "RH"))
    assert one.answer_to(waits).status == Status.SUCCESS


def test_what_is_temporary_is_removed(start: Start, connect: Connect, tmp_path: Path, monkeypatch: pytest.MonkeyPatch) -> None:
    """Copies and streams, when the server ends."""
    (tmp_path / "share/below").mkdir(parents=True)
    (tmp_path / "share/below/file").write_bytes(b"given")
    (tmp_path / "temporary").mkdir()
    monkeypatch.setenv("TMPDIR", str(tmp_path / "temporary"))
    server = start("--folder", str(tmp_path / "share"))
    connect(server).open(create("below\\file:stream"))
    assert len(list((tmp_path / "temporary").rglob("file"))) == 1
    server.close()
    assert not list((tmp_path / "temporary").iterdir())


@pytest.mark.parametrize("words, content", [([], b"given"), (["--writable"], b"givbytes")], ids=["a copy", "the folder itself"])
def test_a_folder_is_served(start: Start, connect: Connect, tmp_path: Path, words: list[str], content: bytes) -> None:
    """Its files are there, and stay as they are where that isn't asked for."""
    (tmp_path / "below").mkdir()
    (tmp_path / "below/file").write_bytes(b"given")
    one = connect(start("--folder", str(tmp_path), *words))
    file_id = one.open(create("below\\file", disposition=1))
    assert one.ask(read(file_id)).data[80:] == b"given"
    assert one.status(write(file_id)) == Status.SUCCESS
    assert one.ask(read(file_id)).data[80:] == b"givbytes"
    assert (tmp_path / "below/file").read_bytes() == content


def test_server_whose_start_is_interrupted(program: str, monkeypatch: pytest.MonkeyPatch) -> None:
    """Nobody has it by then who could end it, so it is ended at once."""
    started: list[int] = []

    def interrupted(server: ServerProcess) -> int:
        started.append(server.process)
        raise KeyboardInterrupt
    monkeypatch.setattr(ServerProcess, "_port", interrupted)
    with pytest.raises(KeyboardInterrupt):
        ServerProcess(program)
    with pytest.raises(ProcessLookupError):
        os.kill(started[0], 0)
