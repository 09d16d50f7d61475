"""What became of explored schedules, for a build server (JUnit's XML)."""
from __future__ import annotations

import xml.etree.ElementTree as xml
from collections.abc import Sequence

from smblease.drive.called import name_of
from smblease.drive.explored import Row


def junit(rows: Sequence[Row], seed: int) -> bytes:
    """The rows as a test suite, in which each schedule is a test."""
    results = [(row, *row.result()) for row in rows]
    counts = {name: sum(kind == it for _, kind, _ in results)
              for name, it in (("failures", "failure"), ("errors", "error"), ("skipped", "skipped"))}
    numbers = {"tests": str(len(rows)), **{it: str(counts[it]) for it in counts}}
    suite = xml.Element("testsuite", {"name": name_of("drive/explore"), **numbers})
    for row, kind, why in results:
        case = xml.SubElement(suite, "testcase", {"classname": f"seed {seed}", "name": f"schedule {row.number}"})
        if kind:
            xml.SubElement(case, kind, {"message": why})
    xml.indent(suite)
    return bytes(xml.tostring(suite, encoding="utf-8", xml_declaration=True)) + b"\n"
