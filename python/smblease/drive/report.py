"""A page on what became of explored schedules, which needs no network, and the same for programs."""
from __future__ import annotations

import base64
import json
import xml.etree.ElementTree as xml
from collections.abc import Callable, Mapping, Sequence
from dataclasses import asdict, dataclass
from pathlib import Path

from smblease.drive.explored import Head, Row
from smblease.drive.pictures import explanation_of, picture_of

STYLE = """body { font-family: sans-serif; margin: 2em; } table { border-collapse: collapse; }
td, th { border: 1px solid #bbb; padding: 0.2em 0.6em; text-align: left; } .charged { background: #fdd; } .fault { background: #fe9; }
.nothing, .allowed { background: #eee; } pre { background: #f6f6f6; padding: 0.6em; overflow: auto; } img { max-width: 100%; }"""
COLUMNS: dict[str, Callable[[Row], object]] = {
    "schedule": lambda it: it.seed, "chosen": lambda it: it.manner, "events": lambda it: it.events, "done": lambda it: it.applied,
    "leases": lambda it: it.tried.granted, "breaks": lambda it: it.tried.breaks,
    "acknowledgments": lambda it: it.tried.acknowledged, "cached reads": lambda it: it.tried.cached_reads,
    "verdict": lambda it: it.verdict + (", allowed" if it.is_allowed else ""), "likeness": lambda it: it.likeness,
}


@dataclass(frozen=True)
class Report:
    """What both forms say. `folder` has what was kept of schedules; `versions` are those of the program and of the server."""

    head: Head
    versions: Mapping[str, str]
    rows: Sequence[Row]
    folder: Path
    program: str

    def json(self) -> bytes:
        rows = [{**asdict(it), "kept": sorted(kept.name for kept in self.folder.glob(f"{it.number}.*"))} for it in self.rows]
        said = {"seed": self.head.seed, "server": self.head.server, "options": self.head.options, "versions": dict(self.versions),
                "schedules": rows}
        return json.dumps(said, indent=1).encode() + b"\n"

    def html(self) -> bytes:
        page = xml.Element("html", lang="en")
        head, body = xml.SubElement(page, "head"), xml.SubElement(page, "body")
        xml.SubElement(head, "meta", charset="utf-8")
        title = f"Schedules on {self.head.server}"
        _add(head, "title", title)
        _add(head, "style", STYLE)
        _add(body, "h1", title)
        facts = {"Seed": str(self.head.seed), "Options": self.head.options or "none", **self.versions}
        for name, value in facts.items():
            _add(body, "p", f"{name}: {value}")
        self._add_table(body)
        for row in self.rows:
            if row.is_unsafe or row.is_unexpected:
                self._add_charged(body, row)
        return b"<!DOCTYPE html>\n" + bytes(xml.tostring(page, encoding="utf-8", method="html")) + b"\n"

    def _add_table(self, body: xml.Element) -> None:
        table = xml.SubElement(body, "table")
        names = xml.SubElement(table, "tr")
        for name in COLUMNS:
            _add(names, "th", name)
        for row in self.rows:
            line = xml.SubElement(table, "tr", {"class": _kind(row)})
            for name, value in COLUMNS.items():
                cell = xml.SubElement(line, "td")
                if name == "verdict" and row.is_charged:
                    _add(cell, "a", str(value(row))).set("href", f"#schedule-{row.number}")
                else:
                    cell.text = str(value(row))

    def _add_charged(self, body: xml.Element, row: Row) -> None:
        """A schedule by which the server is charged: what is left of it, where it was shrunk."""
        name = f"{row.number}.shrunk" if (self.folder / f"{row.number}.shrunk.record").exists() else str(row.number)
        _add(body, "h2", f"Schedule {row.seed}: {row.verdict}").set("id", f"schedule-{row.number}")
        if row.left is not None:
            _add(body, "p", f"{row.left} of {row.events} events are left.")
        record = self._kept(f"{name}.record")
        for title, text in (("What isn't expected", self._kept(f"{name}.difference")),
                            ("Why", explanation_of(self.program, record) if row.is_unsafe and record else ""),
                            ("The schedule", self._kept(f"{name}.schedule"))):
            if text:
                _add(body, "h3", title)
                _add(body, "pre", text)
        picture = base64.b64encode(picture_of(self.program, record)).decode() if record else ""
        if picture:
            _add(body, "h3", "What happened")
            xml.SubElement(body, "img", alt=f"schedule {row.number}", src=f"data:image/svg+xml;base64,{picture}")

    def _kept(self, name: str) -> str:
        path = self.folder / name
        return path.read_text(encoding="utf-8") if path.exists() else ""


def _kind(row: Row) -> str:
    if row.is_charged:
        return "charged"
    if row.is_fault:
        return "fault"
    return "nothing" if row.tried_nothing else "allowed" if row.is_allowed else "safe"


def _add(parent: xml.Element, tag: str, text: str) -> xml.Element:
    child = xml.SubElement(parent, tag)
    child.text = text
    return child
