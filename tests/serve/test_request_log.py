"""`--log`: a line for each request that is answered."""
from __future__ import annotations

import json
import re
from datetime import datetime, timedelta, timezone
from pathlib import Path
from typing import Any, Dict, List

from smblease import Status
from smblease.drive.headers import Command
from smblease.serve.server_process import ServerProcess
from tests.paths import TOP
from tests.serve.conftest import Connect, Start
from tests.serve.requests import ECHO, KEY, acknowledgment, close, compound, create, leased, lock, read, rename, write

EXCLUSIVE, UNLOCK = 2, 4
Entries = List[Dict[str, Any]]
NOTHING: Dict[str, Any] = {
    "name": None, "offset": None, "length": None, "state": None, "waited": False, "fault": None, "breaks": []}


def entries(path: Path, *commands: str) -> Entries:
    """Those of some commands, without what differs from run to run."""
    found = [json.loads(line) for line in path.read_text(encoding="utf-8").splitlines()]
    return [{key: value for key, value in it.items() if key not in ("time", "address", "message")}
            for it in found if it["command"] in commands]


def entry(client: int | None, command: str, status: str = "SUCCESS", **more: Any) -> dict[str, Any]:
    return {"client": client, "command": command, "status": status, **NOTHING, **more}


def test_what_the_manager_decides(start: Start, connect: Connect, tmp_path: Path) -> None:
    """The state that is granted, whether it waited, and whose lease is broken by it; a line when it is answered."""
    path = tmp_path / "log"
    server = start("--log", str(path), "--json")
    one, other = connect(server), connect(server)
    held = one.open(leased("file", KEY, "RWH"))
    number = other.send(create("file", share=0))
    one.receive()
    one.ask(acknowledgment(KEY, "RW"))
    assert other.answer_to(number).status == Status.SHARING_VIOLATION
    number = other.send(create("file"))
    one.receive()
    one.ask(acknowledgment(KEY, "R"))
    other.ask(write(other.answer_to(number).number(128, 8), 5, b"bytes"))
    one.ask(close(held))
    assert entries(path, "CREATE", "OPLOCK_BREAK", "WRITE", "CLOSE") == [
        entry(1, "CREATE", name="file", state="RWH"), entry(1, "OPLOCK_BREAK", state="RW"),
        entry(2, "CREATE", "SHARING_VIOLATION", name="file", waited=True, breaks=broken("RWH", "RW")),
        entry(1, "OPLOCK_BREAK", state="R"), entry(2, "CREATE", name="file", waited=True, breaks=broken("RW", "R")),
        entry(2, "WRITE", name="file", offset=5, length=5, breaks=broken("R", "none")), entry(1, "CLOSE", name="file")]


def broken(was: str, becomes: str) -> Entries:
    return [{"client": 1, "key": KEY.hex, "was": was, "becomes": becomes}]


def test_a_lock_that_waits(start: Start, connect: Connect, tmp_path: Path) -> None:
    path = tmp_path / "log"
    server = start("--log", str(path), "--json")
    one, other = connect(server), connect(server)
    first, second = one.open(create("file")), other.open(create("file"))
    one.ask(lock(first))
    number = other.send(lock(second, flags=EXCLUSIVE))
    assert other.receive().status == Status.PENDING
    one.ask(lock(first, flags=UNLOCK))
    assert other.answer_to(number).status == Status.SUCCESS
    of_range: Dict[str, Any] = {"name": "file", "offset": 0, "length": 1}
    assert entries(path, "LOCK") == [entry(1, "LOCK", **of_range), entry(1, "LOCK", **of_range),
                                     entry(2, "LOCK", waited=True, **of_range)]


def test_names_and_ranges(start: Start, connect: Connect, tmp_path: Path) -> None:
    """The name is that of the request's file, as it is called by then."""
    path = tmp_path / "log"
    server = start("--log", str(path), "--json")
    one = connect(server)
    held = one.open(create("file", access=0x13019F))
    for body in (write(held, 5, b"bytes"), read(held, 7), lock(held, offset=1 << 40, length=3), rename(held, "späť\n\"")):
        one.ask(body)
    one.ask(rename(held, "späť"))
    bodies = [create("späť"), read((1 << 64) - 1, 9), close((1 << 64) - 1)]
    one.stream.sendall(compound(one.number, one.session, one.tree, bodies))
    one.receive()
    one.number += 3
    one.ask(close(held))
    one.ask(close(held))
    assert entries(path, "CREATE", "WRITE", "READ", "LOCK", "SET_INFO", "CLOSE") == [
        entry(1, "CREATE", name="file"), entry(1, "WRITE", name="file", offset=5, length=5),
        entry(1, "READ", name="file", offset=0, length=7), entry(1, "LOCK", name="file", offset=1 << 40, length=3),
        entry(1, "SET_INFO", "OBJECT_NAME_INVALID", name="file"), entry(1, "SET_INFO", name="file"),
        entry(1, "CREATE", name="späť"), entry(1, "READ", name="späť", offset=0, length=9), entry(1, "CLOSE", name="späť"),
        entry(1, "CLOSE", name="späť"), entry(1, "CLOSE", "FILE_CLOSED")]


def test_who_asks_and_when(start: Start, connect: Connect, tmp_path: Path) -> None:
    """A client has its number from its session on, and to its end."""
    path, begun = tmp_path / "log", datetime.now(timezone.utc)
    server = start("--log", str(path), "--json")
    one = connect(server)
    host, port = one.stream.getsockname()
    for body in (ECHO, (Command.LOGOFF, ECHO[1])):
        one.ask(body)
    server.close()
    found = [json.loads(line) for line in path.read_text(encoding="utf-8").splitlines()]
    assert {it["address"] for it in found} == {f"{host}:{port}"}
    assert [(it["command"], it["client"]) for it in found[:4]] == [
        ("NEGOTIATE", None), ("SESSION_SETUP", None), ("SESSION_SETUP", 1), ("TREE_CONNECT", 1)]
    assert [it["status"] for it in found[:3]] == ["SUCCESS", "MORE_PROCESSING_REQUIRED", "SUCCESS"]
    assert {it["client"] for it in found[3:]} == {1} and {"ECHO", "LOGOFF"} <= {it["command"] for it in found}
    assert [it["message"] for it in found] == sorted(it["message"] for it in found)
    times = [datetime.fromisoformat(it["time"]) for it in found]
    assert times == sorted(times) and begun <= times[0] and times[-1] < begun + timedelta(seconds=60)


def test_lines(start: Start, connect: Connect, tmp_path: Path) -> None:
    """Without --json they are for people."""
    path = tmp_path / "log"
    server = start("--log", str(path))
    one, other = connect(server), connect(server)
    held = one.open(leased("a b", KEY, "R"))
    opened = other.open(create("a b"))
    other.ask(write(opened, 5, b"bytes"))
    one.ask(read(held, 9))
    host, port = other.stream.getsockname()
    line, = (it for it in path.read_text(encoding="utf-8").splitlines() if " WRITE " in it)
    time, _, rest = line.partition(" ")
    assert re.fullmatch(r"\d{4}-\d\d-\d\dT\d\d:\d\d:\d\d\.\d{6}\+00:00", time)
    place = re.escape(f"{host}:{port}")
    assert re.fullmatch(rf'client 2 {place} WRITE \d+ "a b" 5 at 5 SUCCESS breaks client 1 {KEY.hex} R to none', rest)


def test_the_lines_of_the_page(start: Start, connect: Connect, tmp_path: Path) -> None:
    """docs/CLIENT_TESTS.md has those of this conversation, at other times and ports."""
    path = tmp_path / "log"
    (tmp_path / "share").mkdir()
    (tmp_path / "share" / "file").write_bytes(b"bytes")
    server = start("--log", str(path), "--folder", str(tmp_path / "share"))
    one, other = connect(server), connect(server)
    one.open(leased("file", KEY, "RWH"))
    number = other.send(create("file"))
    one.receive()
    one.ask(acknowledgment(KEY, "RH"))
    other.ask(read(other.answer_to(number).number(128, 8), 4096))
    page = (TOP / "docs/CLIENT_TESTS.md").read_text(encoding="utf-8")
    written, shown = (re.findall(r"^ *\d\S+ (client \d 127\.0\.0\.1:)\d+ (\w+ \d+ .*)$", it, re.M)
                      for it in (path.read_text(encoding="utf-8"), page))
    assert [it for it in written if it[1].split(" ")[0] in ("CREATE", "OPLOCK_BREAK", "READ")] == shown


def test_standard_error(program: str, connect: Connect) -> None:
    """Faults that were wanted are there, of each kind."""
    server = ServerProcess(program, words=["--log", "-"])
    one = connect(server)
    for line in ("refuse 0xC000035C ECHO", "drop ECHO", "delay 0.1 ECHO", "reorder ECHO"):
        server.tell(line)
    one.ask(ECHO)
    numbers = [one.send(ECHO) for _ in range(4)]
    assert {one.receive().identifier for _ in range(3)} == set(numbers[1:])
    server.close()
    found = [it.partition(" ECHO ")[2].split(" ", 1)[1] for it in server.complaints.splitlines() if " ECHO " in it]
    assert found == ["0xc000035c fault refuse", "SUCCESS fault drop", "SUCCESS fault delay", "SUCCESS fault reorder", "SUCCESS"]
