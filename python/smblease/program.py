"""The program `leasecheck`: where it is, and what it says of schedules and records."""
from __future__ import annotations

import os
import re
import shutil
import subprocess
from collections.abc import Iterator, Sequence
from dataclasses import dataclass

from smblease._library import HERE, TOP
from smblease.faults import ToolFault
from smblease.values import Rules

NAME = "leasecheck"
SECONDS = 600


def _brought() -> Iterator[str]:
    """Where the program stands that came with this package: in the repository, or where an installer noted that it was put."""
    if os.path.exists(os.path.join(TOP, "crates.txt")):
        yield os.path.join(TOP, NAME)
    # (it takes as long to load as all the rest of this package, and only what is installed needs it)
    from importlib.metadata import distributions  # pylint: disable=import-outside-toplevel
    folder = os.path.dirname(HERE)
    for found in distributions(name="smblease", path=[folder]):
        yield from (str(found.locate_file(it)) for it in found.files or () if it.name == NAME and it.parent.name == "bin")
    # (what pip noted for --target isn't so)
    yield os.path.join(folder, "bin", NAME)


def find_program() -> str:
    """The path of the program: the one that came with the package, else the one on the path.

    >>> import os
    >>> os.path.basename(find_program())
    'leasecheck'
    """
    own = next(filter(os.path.isfile, _brought()), None)
    return os.path.normpath(own) if own else shutil.which(NAME) or NAME


@dataclass(frozen=True)
class Verdict:
    """What the program says of a record: `safe`, `unsafe PLACE RULE` or `malformed PLACE`.

    >>> Verdict("unsafe 21 2").rule
    2
    """

    text: str

    @property
    def rule(self) -> int | None:
        """The rule that is broken, where one is."""
        found = re.fullmatch(r"unsafe \d+ (\d)", self.text)
        return int(found.group(1)) if found else None

    @property
    def is_safe(self) -> bool:
        """Whether no rule is broken, in a record that is one."""
        return self.text == "safe"


def _run(program: str, words: Sequence[str], given: str) -> subprocess.CompletedProcess[str]:
    try:
        return subprocess.run([program, *words], input=given, text=True, capture_output=True, timeout=SECONDS, check=False)
    except (OSError, subprocess.TimeoutExpired) as fault:
        why = fault.strerror if isinstance(fault, OSError) else "it didn't end within ten minutes"
        raise ToolFault(f"{program}: {why}") from None


def judge(program: str, record: str) -> Verdict:
    """The verdict on a record.

    >>> judge(find_program(), "start 1 61\\nbelieves 1 1 RW\\n")
    Verdict(text='safe')
    """
    ran = _run(program, ["judge", "-"], record)
    said = ran.stdout.strip()
    if not said:
        raise ToolFault(f"the record isn't judged: {ran.stderr.strip() or f'{program} ended with status {ran.returncode}'}")
    return Verdict(said)


def replay(program: str, schedule: str, *words: str, rules: Rules = Rules()) -> list[str]:
    """The record of a schedule on the server of this repository, of the profile's rules or of others, without its end; with
    `--messages` also what is in the messages. A text that is no schedule is refused.

    >>> replay(find_program(), "file 616263\\nclient 11111111-1111-1111-1111-111111111111\\nconnect 1\\n")
    ['start 1 616263', 'joined 1']
    """
    ran = _run(program, ["replay", "--rules", str(rules), *words, "-"], schedule)
    if ran.returncode != 0:
        raise ToolFault(ran.stderr.strip() or f"{program} ended with status {ran.returncode}")
    return ran.stdout.splitlines()[:-1 if rules == Rules() else -2]
