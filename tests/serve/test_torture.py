"""What serve/torture makes of smbtorture's words, and its table of suites."""
from __future__ import annotations

from pathlib import Path

import pytest

from smblease.serve.torture_command import known_tests
from smblease.serve.torture_suites import Kind, Row, read_rows, suite_of, table
from tests import needs

ROWS = [Row("smb2.lease.request", Kind.PASSED, 0.5, ""), Row("smb2.lease.break", Kind.FAILED, 1.25, "lease.c:12: no: [x]"),
        Row("smb2.connect", Kind.SKIPPED, 0.1, "why"), Row("smb2.ioctl.copy-chunk streams", Kind.PASSED, 100.0, "")]


@pytest.mark.parametrize("name, suite", [
    ("smb2.lease.request", "smb2.lease"), ("smb2.connect", "smb2"), ("smb2.multichannel.leases.test1", "smb2.multichannel"),
    ("smb2.charset.Testing composite character (a umlaut)", "smb2.charset")])
def test_suites(name: str, suite: str) -> None:
    assert suite_of(name) == suite


def test_rows_are_read_as_they_were_printed(tmp_path: Path) -> None:
    lines = [row.text for row in ROWS]
    (tmp_path / "rows").write_text("\n".join([*lines, "2 passed, 1 failed, 1 skipped", "| smb2 | 1 |"]), encoding="utf-8")
    assert [it.text for it in read_rows(str(tmp_path / "rows"))] == lines
    assert [it.name for it in read_rows(str(tmp_path / "rows"))] == [it.name for it in ROWS]


def test_the_table() -> None:
    """A suite that one server alone has is a row too."""
    assert table([("serve/run", ROWS), ("smbd", ROWS[:1])]).splitlines() == [
        "| passed/failed/skipped of | serve/run | smbd |",
        "| --- | --- | --- |",
        "| smb2 | 0/0/1 | 0/0/0 |",
        "| smb2.ioctl | 1/0/0 | 0/0/0 |",
        "| smb2.lease | 1/1/0 | 1/0/0 |",
        "| in all | 2/1/1 | 1/0/0 |"]


@needs.program("smbtorture")
def test_the_tests_of_smbtorture() -> None:
    """Those of suites, those of none, and those whose names have blanks."""
    names = {"smb2.lease.request", "smb2.connect", "smb2.delete-on-close-perms.CREATE Existing", "smb2.multichannel.leases.test1"}
    assert names <= set(known_tests())
