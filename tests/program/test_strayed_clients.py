"""Good clients that share files with strayed ones stay safe: by `replay`, by `judge`, and by the plain Rust of bench/judge.rs
where rustc is there."""
from __future__ import annotations

import random
import shutil
import subprocess
from pathlib import Path
from typing import Optional

import pytest

from tests.paths import TOP
from tests.program.ran import SAFE, Ended, run
from tests.program.straying import StrayingSchedule

pytestmark = pytest.mark.long
AT_ONCE = 25


@pytest.fixture(scope="module", name="plain_judge")
def build_plain_judge(tmp_path_factory: pytest.TempPathFactory) -> Optional[Path]:
    """The judge in plain Rust, which each process that runs tests builds for itself; None where there is no rustc."""
    if not shutil.which("rustc"):
        return None
    made = tmp_path_factory.mktemp("plain") / "judge"
    subprocess.run(["rustc", "--edition", "2021", "-O", "-o", made, TOP / "bench" / "judge.rs"], check=True)
    return made


def reads_after_straying(record: str) -> bool:
    """Whether a client that hasn't strayed reads from its cache after the first request that strayed."""
    strayed = set()
    for words in (line.split(" ") for line in record.split("\n")):
        if words[0] == "strayed":
            strayed.add(words[1])
        if words[0] == "cachedread" and strayed and words[1] not in strayed:
            return True
    return False


@pytest.mark.parametrize("number", range(40))
def test_records_are_safe(number: int, chooser: random.Random, tmp_path: Path, plain_judge: Optional[Path]) -> None:
    seen = 0
    for _ in range(AT_ONCE):
        text = StrayingSchedule(chooser).text()
        record = run(["replay", "-"], text.encode())
        assert (record.status, record.faults) == (0, b"") and record.out.endswith(b"# safe\n"), text
        assert run(["judge", "-"], record.out) == Ended(0, SAFE), text
        if plain_judge:
            path = tmp_path / f"{number}.record"
            path.write_bytes(record.out)
            assert subprocess.run([plain_judge, path], stdout=subprocess.PIPE, check=False).stdout == SAFE, text
        seen += reads_after_straying(record.out.decode())
    assert seen, "no good client read from its cache after a request that strayed"
