"""The wheel, installed without a network into a fresh environment of each Python at hand."""
from __future__ import annotations

import re
import zipfile
from pathlib import Path

import pytest

from tests import needs
from tests.install.making import MARKS, environment, label, printed, pythons, ran
from tests.paths import EXAMPLE, TOP
from tests.program.ran import ACKNOWLEDGMENT, BREAK, run
from tests.program.test_version import PROGRAM_SAYS, VERSION, commit_line, said_by

pytestmark = [*MARKS, pytest.mark.long, pytest.mark.xdist_group("installed")]
COMMANDS = ("run", "explore", "compare", "capture", "serve", "torture")
CAPTURE = TOP / "drive" / "captures" / "two_clients_share_a_file.pcapng"


@pytest.fixture(scope="module", name="programs", params=pythons(), ids=label)
def programs_of_an_environment(request: pytest.FixtureRequest, tmp_path_factory: pytest.TempPathFactory, wheel: Path) -> Path:
    """The folder of the environment's programs."""
    folder = tmp_path_factory.mktemp("installed")
    programs = environment(request.param, folder)
    made = ran([programs / "python", "-m", "pip", "install", "--quiet", wheel], folder)
    assert made.returncode == 0, made
    return programs


def test_program(programs: Path, tmp_path: Path) -> None:
    assert printed([programs / "leasecheck", "ack", BREAK], tmp_path) == f"{ACKNOWLEDGMENT}\n"


def test_program_says_its_commit(programs: Path, tmp_path: Path) -> None:
    """Also where it is started by a link."""
    link = tmp_path / "link"
    link.symlink_to(programs / "leasecheck")
    for program in (programs / "leasecheck", link):
        assert printed([program, "--version"], tmp_path) == PROGRAM_SAYS + commit_line()


def test_library(programs: Path, tmp_path: Path) -> None:
    program = f"import smblease; print(smblease.Notification.read(bytes.fromhex('{BREAK}')).acknowledgment().write().hex())"
    assert printed([programs / "python", "-c", program], tmp_path) == f"{ACKNOWLEDGMENT}\n"


def test_fixture(programs: Path, tmp_path: Path) -> None:
    """The module of the fixture for pytest, which isn't there, comes with it."""
    program = "import importlib.util as it; print(it.find_spec('smblease.testing').origin)"
    assert printed([programs / "python", "-c", program], tmp_path).startswith(str(programs.parent))


def test_version(programs: Path, tmp_path: Path) -> None:
    program = "import smblease, importlib.metadata as it; print(smblease.__version__, it.version('smblease'))"
    assert printed([programs / "python", "-c", program], tmp_path) == f"{VERSION} {VERSION}\n"


def test_package_finds_its_own_program(programs: Path, tmp_path: Path) -> None:
    """Also where the environment's programs aren't on the path."""
    program = "from smblease.program import find_program; print(find_program())"
    assert printed([programs / "python", "-c", program], tmp_path) == f"{programs / 'leasecheck'}\n"


def test_package_runs_its_program(programs: Path, tmp_path: Path) -> None:
    program = ("from smblease.program import find_program, replay\n"
               "print('\\n'.join(replay(find_program(), open('schedule').read())))")
    (tmp_path / "schedule").write_bytes(EXAMPLE.read_bytes())
    record = run(["replay", EXAMPLE]).out.decode()
    assert printed([programs / "python", "-c", program], tmp_path) == record.removesuffix("# safe\n")


@pytest.mark.parametrize("command", COMMANDS)
def test_command(programs: Path, tmp_path: Path, command: str) -> None:
    """Help and version need nothing but the package, and know the name that was called."""
    name = f"smblease-{command}"
    assert printed([programs / name, "--help"], tmp_path).startswith(f"usage: {name} [-h] [--version] ")
    assert printed([programs / name, "--version"], tmp_path) == said_by(name)


@pytest.mark.parametrize("command, words", [("run", ["schedule"]), ("compare", ["schedule"]),
                                            ("explore", ["--seed", "1", "--count", "1"])])
def test_missing_extra(programs: Path, tmp_path: Path, command: str, words: list[str]) -> None:
    (tmp_path / "schedule").write_bytes(EXAMPLE.read_bytes())
    done = ran([programs / f"smblease-{command}", *words, "--served"], tmp_path)
    said = f"smblease-{command}: impacket is missing: pip install 'smblease[servers]'\n"
    assert (done.returncode, done.stdout, done.stderr) == (1, "", said)


def test_extra_is_said_of_the_package(wheel: Path) -> None:
    with zipfile.ZipFile(wheel) as opened:
        said = opened.read(f"smblease-{VERSION}.dist-info/METADATA").decode()
    assert "\nProvides-Extra: servers\n" in said and re.search(r"^Requires-Dist: impacket.*; extra == 'servers'$", said, re.M)


def test_usage_is_refused_by_that_name(programs: Path, tmp_path: Path) -> None:
    done = ran([programs / "smblease-serve", "--port", "70000", "--share", "s"], tmp_path)
    assert (done.returncode, done.stderr) == (2, "smblease-serve: --port is from 0 to 65535\n")


@needs.program("tshark")
def test_capture(programs: Path, tmp_path: Path) -> None:
    """Nothing but tshark has to be there, and no client of the kept capture cached what another one changed."""
    said = printed([programs / "smblease-capture", CAPTURE, "--record", "record"], tmp_path)
    assert said.splitlines()[0] == "safe"
    assert printed([programs / "leasecheck", "judge", "record"], tmp_path) == "safe\n"
