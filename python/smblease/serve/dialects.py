"""The dialects of SMB 2 and 3 (2.2.3), and which of them a server speaks."""
from __future__ import annotations

from collections.abc import Collection
from dataclasses import dataclass
from enum import IntEnum

from smblease.drive.faults import Usage


class Dialect(IntEnum):
    SMB_2_0_2 = 0x0202
    SMB_2_1 = 0x0210
    SMB_3_0 = 0x0300
    SMB_3_0_2 = 0x0302
    SMB_3_1_1 = 0x0311


NAMES = {"2.0.2": Dialect.SMB_2_0_2, "2.1": Dialect.SMB_2_1, "3.0": Dialect.SMB_3_0, "3.0.2": Dialect.SMB_3_0_2,
         "3.1.1": Dialect.SMB_3_1_1}
# as smbd has them
SMBD_NAMES = {"SMB2_02": Dialect.SMB_2_0_2, "SMB2_10": Dialect.SMB_2_1, "SMB3_00": Dialect.SMB_3_0, "SMB3_02": Dialect.SMB_3_0_2,
              "SMB3_11": Dialect.SMB_3_1_1, "SMB2": Dialect.SMB_2_1, "SMB3": Dialect.SMB_3_1_1}
DEFAULT = "2.1"


def name_of(dialect: Dialect) -> str:
    return next(name for name, found in NAMES.items() if found is dialect)


def smbd_name(dialect: Dialect) -> str:
    return next(name for name, found in SMBD_NAMES.items() if found is dialect)


@dataclass(frozen=True)
class Dialects:
    """From one to another; without options 2.1 alone."""

    least: Dialect = Dialect.SMB_2_1
    most: Dialect = Dialect.SMB_2_1

    def common(self, theirs: Collection[int]) -> Dialect | None:
        """The greatest one that a client speaks too."""
        return max((it for it in Dialect if it in theirs and self.least <= it <= self.most), default=None)

    @property
    def has_3(self) -> bool:
        return self.most >= Dialect.SMB_3_0


def dialect_of(option: str, word: str) -> Dialect:
    found = NAMES.get(word) or SMBD_NAMES.get(word.upper())
    if found is None:
        raise Usage(f"{option} is one of {', '.join(NAMES)}, or as smbd has it, {', '.join(list(SMBD_NAMES)[:len(NAMES)])}")
    return found


def dialects_of(least: str, most: str) -> Dialects:
    found = Dialects(dialect_of("--min", least), dialect_of("--max", most))
    if found.least > found.most:
        raise Usage(f"--min {least} is above --max {most}")
    return found
