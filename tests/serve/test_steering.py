"""The fixture of smblease.testing, and what it is made of."""
from __future__ import annotations

import re
import subprocess
import sys
import uuid
from collections.abc import Callable
from pathlib import Path
from types import SimpleNamespace
from typing import TYPE_CHECKING, cast

import pytest

from smblease import LeaseState, Notification, Status
from smblease.drive.faults import DriveFault
from smblease.drive.headers import HEADER, Command
from smblease.drive.place import Place
from smblease.serve.steering import Control, steered_share
from tests import needs
from tests.paths import PACKAGES, TOP
from tests.serve.requests import KEY, acknowledgment, close, leased, write
from tests.serve.seeded import Speaker

if TYPE_CHECKING:
    from smblease.serve.server_process import ServerProcess

GUID = b"0123456789abcdef"


@pytest.mark.parametrize("call, line", [
    (lambda it: it.break_lease(1, KEY, "RH"), f"break 1 {KEY.hex} RH"),
    (lambda it: it.break_lease(GUID, KEY.bytes, LeaseState.NONE), f"break 30313233-3435-3637-3839-616263646566 {KEY.hex} none"),
    (lambda it: it.break_lease(2, None, LeaseState.R), "break 2 oplock R"),
    (lambda it: it.expire(uuid.UUID(int=5), KEY), f"expire 00000000-0000-0000-0000-000000000005 {KEY.hex}"),
    (lambda it: it.scavenge(7), "scavenge 7"), (lambda it: it.log_off(1), "logoff 1"),
    (lambda it: it.disconnect(1), "disconnect 1"), (lambda it: it.refuse("READ", "DISK_FULL"), "refuse DISK_FULL READ"),
    (lambda it: it.refuse(Command.READ, Status.DISK_FULL, 3), "refuse 0xc000007f READ 3"),
    (lambda it: it.drop("NOTIFICATION"), "drop NOTIFICATION"), (lambda it: it.delay("READ", 0.5, 1), "delay 0.5 READ 1"),
    (lambda it: it.reorder(Command.WRITE, 1), "reorder WRITE 1")])
def test_lines(call: Callable[[Control], bool], line: str) -> None:
    said: list[str] = []
    control = Control(cast("ServerProcess", SimpleNamespace(tell=said.append)))
    call(control)
    assert said == [line]


def test_a_share(tmp_path: Path) -> None:
    """Files are those of its folder, and its server is steered."""
    (tmp_path / "file").write_bytes(b"before")
    with steered_share(tmp_path, "--seed", "3") as share:
        client = Speaker(Place(share.address, share.port, share.name, "guest", "guest"), GUID)
        client.set_up("guest")
        held = client.open(leased("file", KEY, "RWH", disposition=1))
        assert share.control.break_lease(GUID, KEY, "RH")
        assert str(Notification.read(client.receive().data[HEADER:]).new) == "RH"
        assert client.ask(acknowledgment(KEY, "RH")).status == Status.SUCCESS
        assert share.control.refuse("WRITE", Status.DISK_FULL)
        assert [client.ask(write(held, 0, b"AFTER!")).status for _ in range(2)] == [Status.DISK_FULL, Status.SUCCESS]
        assert not share.control.disconnect(uuid.UUID(int=1))
        with pytest.raises(DriveFault, match="refused"):
            share.control.delay("READ", -1)
        client.ask(close(held))
        client.close()
    assert (tmp_path / "file").read_bytes() == b"AFTER!"


def test_a_server_that_ends_badly(tmp_path: Path) -> None:
    with pytest.raises(DriveFault, match="doesn't begin"), steered_share(tmp_path, "--rules", "none"):
        pass


def ran(folder: Path, *words: str) -> "subprocess.CompletedProcess[str]":
    return subprocess.run([sys.executable, *words], cwd=folder, env={"PATH": "/usr/bin:/bin", "PYTHONPATH": PACKAGES},
                          capture_output=True, text=True, timeout=120, check=False)


@needs.program("smbclient")
def test_the_example_of_the_page(tmp_path: Path) -> None:
    """Its tests pass as they stand there."""
    page = (TOP / "docs/CLIENT_TESTS.md").read_text(encoding="utf-8")
    block, = re.findall(r"\n\n(    # conftest\.py\n(?:(?:    .*)?\n)+)", page)
    text = re.sub(r"^    ", "", block, flags=re.M)
    _, configuration, tests = re.split(r"^# \w+\.py\n", text, flags=re.M)
    (tmp_path / "conftest.py").write_text(configuration, encoding="utf-8")
    (tmp_path / "test_client.py").write_text(tests, encoding="utf-8")
    done = ran(tmp_path, "-m", "pytest", "-q", "-p", "no:cacheprovider", "--strict-markers")
    assert (done.returncode, "2 passed" in done.stdout) == (0, True), done.stdout + done.stderr


def test_the_package_without_pytest(tmp_path: Path) -> None:
    """It is needed by the module of the fixture alone."""
    code = "import sys; sys.modules['pytest'] = None; import smblease, smblease.serve.steering, smblease.serve.run_command"
    assert ran(tmp_path, "-c", code).returncode == 0
    assert ran(tmp_path, "-c", f"{code}, smblease.testing").returncode == 1
