"""Linear cost is wanted of every family of inputs, by instructions, and of some a limit of memory.

Each family makes an input at four sizes, each twice the one before. The instructions are those that callgrind counts, without
those for the family's set-up alone. The exponent is the slope of the logarithm of the cost over the logarithm of the size.
`--full-sizes` has four times the sizes; bench/growth runs these, and prints what was measured.
"""
from __future__ import annotations

import math
import re
import subprocess
from pathlib import Path
from typing import IO, NamedTuple, Sequence, Union

import pytest
from _pytest.mark import ParameterSet

from tests import needs
from tests.growth.captures import CAPTURES
from tests.growth.clients import CLIENTS
from tests.growth.family import Family
from tests.growth.records import RECORDS
from tests.growth.schedules import SCHEDULES
from tests.growth.servers import SERVERS
from tests.paths import built_program

pytestmark = [pytest.mark.long, needs.program("valgrind"), needs.program("time")]
FAMILIES = [*RECORDS, *SCHEDULES, *CLIENTS, *SERVERS, *CAPTURES]


class Sample(NamedTuple):
    """A size, the bytes of its input, its instructions without those of the set-up, and the peak of memory in bytes."""

    size: int
    length: int
    cost: int
    memory: int


def run(command: Sequence[str], family: Family, path: Path) -> "subprocess.CompletedProcess[str]":
    """Runs the command, which ends with the program's, on the input at the path."""
    given = [*command, built_program(), *family.command.split()]
    if not family.is_spoken:
        given.append(str(path))
    with path.open(encoding="ascii") as lines:
        source: Union[IO[str], int] = lines if family.is_spoken else subprocess.DEVNULL
        done = subprocess.run(given, stdin=source, capture_output=True, text=True, check=False)
    assert done.returncode == family.status, (given, done.stderr or done.stdout)
    return done


def measured(family: Family, size: int, folder: Path, setup: int = 0) -> Sample:
    path, note = folder / "input", folder / "peak"
    path.write_text(family.make(size), encoding="ascii")
    done = run(["valgrind", "--tool=callgrind", "--callgrind-out-file=/dev/null"], family, path)
    counted = re.search(r"Collected : (\d+)", done.stderr)
    assert counted, done.stderr
    family.check_answer(size, done.stdout, done.stderr)
    # (a child of Python itself would count the memory of Python, from before it became the program)
    run(["/usr/bin/time", "-f", "%M", "-o", str(note)], family, path)
    memory = int(note.read_text(encoding="ascii").split()[-1]) * 1024
    return Sample(size, path.stat().st_size, max(1, int(counted[1]) - setup), memory)


def slope(samples: Sequence[Sample]) -> float:
    """The slope of the line of least squares through the logarithms."""
    sizes, costs = [math.log(one.size) for one in samples], [math.log(one.cost) for one in samples]
    x, y = sum(sizes) / len(sizes), sum(costs) / len(costs)
    above = sum((one - x) * (other - y) for one, other in zip(sizes, costs))
    return above / sum((one - x) ** 2 for one in sizes)


def marked(family: Family) -> ParameterSet:
    """A family that is known to be above its limit has to be, until someone mends it."""
    marks = [pytest.mark.xfail(strict=True, raises=AssertionError, reason=family.above)] if family.above else []
    return pytest.param(family, id=family.name, marks=marks)


@pytest.mark.parametrize("family", [marked(it) for it in FAMILIES])
def test_growth(family: Family, tmp_path: Path, request: pytest.FixtureRequest) -> None:
    setup = measured(family, 0, tmp_path).cost
    sizes = family.sizes(1 if request.config.getoption("full_sizes") else 4)
    samples = [measured(family, size, tmp_path, setup) for size in sizes]
    print(f"{family.name}: {' '.join((family.make.__doc__ or '').split())}")
    for one in samples:
        cost = f"{one.cost:>15,} instructions, {one.cost / one.size:>11,.1f} for one"
        print(f"{one.size:>7,} {family.unit}s {one.length:>9,} bytes {cost}, peak of memory {one.memory // 1024:,} KiB")
    before, last = samples[-2:]
    print(f"exponent: {slope(samples[-2:]):.2f} between the last two, {slope(samples):.2f} over all")
    assert max(slope(samples[-2:]), slope(samples)) <= family.most_exponent
    assert family.most_instructions is None or last.cost <= family.most_instructions * last.size
    assert family.most_memory is None or last.memory - before.memory < family.most_memory * (last.size - before.size)
