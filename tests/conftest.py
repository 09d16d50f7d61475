"""What all tests have: the program, random choices that can be made again, and a last line that counts."""
from __future__ import annotations

import random

import pytest

from tests.paths import built_program

try:
    from hypothesis import settings
except ImportError:
    pass
else:
    settings.register_profile("here", deadline=None, derandomize=True, database=None)
    settings.load_profile("here")


def pytest_addoption(parser: pytest.Parser) -> None:
    parser.addoption("--seed", type=int, default=1, help="what random inputs are made from (1)")
    parser.addoption("--full-sizes", action="store_true", help="measure growth at four times the sizes")


def pytest_report_header(config: pytest.Config) -> str:
    return f"random inputs: --seed {config.getoption('seed')}"


@pytest.fixture(scope="session")
def program() -> str:
    return built_program()


@pytest.fixture
def chooser(request: pytest.FixtureRequest) -> random.Random:
    """Random choices of this test alone: the same ones for a seed, whatever else runs."""
    return random.Random(f"{request.config.getoption('seed')} {request.node.name}")


def pytest_unconfigure(config: pytest.Config) -> None:
    reporter = config.pluginmanager.get_plugin("terminalreporter")
    if reporter is None or hasattr(config, "workerinput"):
        return
    passed, skipped, *wrong = (len(reporter.stats.get(it, [])) for it in ("passed", "skipped", "failed", "error"))
    print(f"{passed} passed, {sum(wrong)} failed, {skipped} skipped")
