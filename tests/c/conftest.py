"""Programs in C over the static library, each compiled once for all tests of a process."""
from __future__ import annotations

from pathlib import Path

import pytest

from tests.c import building


@pytest.fixture(scope="session", name="folder")
def work_folder(tmp_path_factory: pytest.TempPathFactory) -> Path:
    if not building.has(building.CC):
        pytest.skip(f"there is no C compiler {building.CC}")
    assert building.made().status == 0, building.made()
    return tmp_path_factory.mktemp("c")


@pytest.fixture(scope="session")
def prefix(tmp_path_factory: pytest.TempPathFactory) -> Path:
    """Where `make install` has put all that it installs."""
    assert building.made().status == 0, building.made()
    folder = tmp_path_factory.mktemp("prefix")
    done = building.run("make", "install", f"PREFIX={folder}")
    assert done.status == 0, done
    return folder


@pytest.fixture(scope="session")
def ack(folder: Path) -> Path:
    return building.program(folder, "examples/c/ack.c")


@pytest.fixture(scope="session")
def show(folder: Path) -> Path:
    return building.program(folder, "tests/c/show.c")


@pytest.fixture(scope="session")
def shared(folder: Path) -> Path:
    return building.program(folder, "examples/c/shared.c")


@pytest.fixture(scope="session")
def file_server(folder: Path) -> Path:
    return building.program(folder, "examples/c/file_server.c")


@pytest.fixture(scope="session")
def file_server_with_refusals(tmp_path_factory: pytest.TempPathFactory, folder: Path) -> Path:
    assert folder
    sources = ("examples/c/file_server.c", "tests/c/refuse_calls.c")
    return building.program(tmp_path_factory.mktemp("refusing"), *sources, flags=building.WRAPPED)


@pytest.fixture(scope="session")
def plain_file_server(tmp_path_factory: pytest.TempPathFactory, folder: Path) -> Path:
    """Without the compiler's checks, which valgrind doesn't go with."""
    assert folder
    return building.program(tmp_path_factory.mktemp("plain"), "examples/c/file_server.c", checks=("-g", "-O1"))


@pytest.fixture(scope="session")
def play(folder: Path) -> Path:
    return building.program(folder, "tests/c/play.c")


@pytest.fixture(scope="session")
def play_with_refusals(tmp_path_factory: pytest.TempPathFactory, folder: Path) -> Path:
    assert folder
    sources = ("tests/c/play.c", "tests/c/refuse_calls.c")
    return building.program(tmp_path_factory.mktemp("refusing"), *sources, flags=building.WRAPPED)
