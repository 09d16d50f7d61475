"""What the commands of drive/ refuse: the status, the beginning of the one line on standard error, and nothing printed."""
from __future__ import annotations

import pytest

from tests import needs
from tests.drive.commands import ran
from tests.paths import TESTS

pytestmark = needs.package("impacket")
MISSING = str(TESTS / "drive" / "none")
REFUSALS = str(TESTS / "schedules" / "refusals")
NAMED = ["--server", "a:1", "--share", "s"]
REFUSED = [
    (["run"], 2, "usage: "), (["run", MISSING], 2, "drive/run: one of --smbd"),
    (["run", "--smbd", MISSING], 1, f"drive/run: {MISSING}"),
    (["run", MISSING, "--smbd", "--server", "a:1"], 2, "drive/run: one of"),
    (["run", MISSING, "--server", "a"], 2, "drive/run: --server"),
    (["run", MISSING, *NAMED], 2, "drive/run: --server needs who asks"),
    (["run", MISSING, "--server", "a:1", "--user", "u%p"], 2, "drive/run: --server needs --share"),
    (["run", MISSING, *NAMED, "--user", "u"], 2, "drive/run: the password of u is needed"),
    (["run", MISSING, *NAMED, "-A", MISSING], 1, f"drive/run: {MISSING}: No such file"),
    (["run", MISSING, *NAMED, "-A", MISSING, "--user", "u%p"], 2, "drive/run: --user and --authentication-file"),
    (["run", MISSING, "--smbd", "--kerberos"], 2, "drive/run: --share, --user"),
    (["run", MISSING, "--served", "--user", "u%p"], 2, "drive/run: --share, --user"),
    (["run", MISSING, "--smbd", "--share", "s"], 2, "drive/run: --share, --user"),
    (["run", MISSING, "--served", "--rules", "whole"], 2, "drive/run: --rules: 'whole'"),
    (["run", MISSING, "--smbd", "--rules", "by-client,whole"], 2, "drive/run: --rules are"),
    (["run", MISSING, "--served", "--break-time", "3"], 2, "drive/run: --share, --user"),
    (["run", MISSING, *NAMED, "--user", "u%p", "--break-time", "-1"], 2, "drive/run: --break-time"),
    (["run", MISSING, "--smbd", "--dialect", "2.0.2"], 2, "drive/run: --dialect is 2.1 or more"),
    (["run", MISSING, "--smbd", "--dialect", "3"], 2, "drive/run: --dialect is one of 2.0.2, 2.1"),
    (["run", MISSING, "--smbd", "--dialect", "SMB2_10", "--encrypt"], 2, "drive/run: --encrypt goes with --dialect 3.0"),
    (["run", MISSING, "--served", "--dialect", "2.1", "--encrypt"], 2, "drive/run: --encrypt goes with --dialect 3.0"),
    (["compare", REFUSALS, "--record", MISSING, "--dialect", "2.1"], 2, "drive/compare: --record"),
    (["compare", REFUSALS, "--record", MISSING, "--encrypt"], 2, "drive/compare: --record"),
    (["run", "--smbd", __file__], 1, "drive/run: fault line 1"),
    (["run", REFUSALS, "--server", "127.0.0.1:1", "--share", "s", "--user", "u%p"], 1, "drive/run: no connection"),
    (["explore", "--smbd", "--seed", "1", "--count", "0"], 2, "drive/explore: --count"),
    (["explore", "--smbd", "--seed", "1", "--count", "1", "--jobs", "2", "--smbd-log", MISSING], 2, "drive/explore: --smbd-log"),
    (["explore", "--smbd", "--seed", "1", "--count", "1", "--expect", "whole"], 2, "drive/explore: --expect: 'whole'"),
    (["explore", "--smbd", "--seed", "1", "--count", "1", "--allow", "none"], 2, "usage: "),
    (["compare", REFUSALS, "--record", MISSING, "--share", "s"], 2, "drive/compare: --record"),
    (["compare", REFUSALS, "--record", MISSING], 1, f"drive/compare: {MISSING}"),
]


@pytest.mark.parametrize(("words", "status", "beginning"), REFUSED,
                         ids=[" ".join(it.rpartition("/")[2] for it in words) for words, _, _ in REFUSED])
def test_refused(words: list[str], status: int, beginning: str) -> None:
    had = ran(words[0], words[1:])
    assert (had.status, had.out, had.faults[:len(beginning)]) == (status, "", beginning), had
