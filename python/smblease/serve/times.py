"""Times as SMB has them: tenths of a microsecond since 1601."""
from __future__ import annotations

import time
from functools import lru_cache

# From 1601 to 1970.
BEFORE_1970 = 11644473600 * 10**7
UNIT = 100
MOST = (1 << 63) - 1


def now() -> int:
    return of_disk(time.time_ns())


@lru_cache(1024)
def of_disk(nanoseconds: int) -> int:
    """A time of the disk, which counts nanoseconds since 1970."""
    units = nanoseconds // UNIT + BEFORE_1970
    return units if 0 <= units <= MOST else min(max(units, 0), MOST)


def on_disk(units: int) -> int:
    return (units - BEFORE_1970) * UNIT
