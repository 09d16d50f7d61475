"""drive/explore --report and --json: a page that needs no network, with a picture of what is charged; the same for programs."""
from __future__ import annotations

import base64
import json
import re
from html.parser import HTMLParser
from pathlib import Path

import pytest

from tests import needs

pytest.importorskip("impacket", reason=f"there is no package impacket; {needs.INSTALLS}")
# pylint: disable=wrong-import-position
from tests.drive.commands import ran  # noqa: E402
from tests.drive.named import named_small  # noqa: E402

# Schedules by their own seeds: by the first one a server that writes before it decides is unsafe.
HELD_WRITE = "1:14"


class Page(HTMLParser):
    """What a page has: its text, the tags with their attributes."""

    def __init__(self, text: str) -> None:
        super().__init__()
        self.words = ""
        self.tags: list[tuple[str, dict[str, str | None]]] = []
        self.feed(text)

    def handle_starttag(self, tag: str, attrs: list[tuple[str, str | None]]) -> None:
        self.tags.append((tag, dict(attrs)))

    def handle_data(self, data: str) -> None:
        self.words += data


def test_page_and_json(tmp_path: Path) -> None:
    folder, page, said = tmp_path / "explored", tmp_path / "page.html", tmp_path / "said.json"
    with named_small("--mistake", "EARLY_DISK") as words:
        had = ran("explore", [*words, "--seed", HELD_WRITE, "--folder", folder, "--no-shrink", "--report", page, "--json", said])
    assert had.status == 3, had
    found = Page(page.read_text(encoding="utf-8"))
    assert not [value for _, named in found.tags for name, value in named.items()
                if name in ("src", "href") and not (value or "").startswith(("data:", "#"))]
    [picture] = [named["src"] for tag, named in found.tags if tag == "img"]
    drawn = base64.b64decode((picture or "").partition(",")[2]).decode()
    # the messages are in the picture, by the words of the record's remarks, and so is where the break is
    assert drawn.startswith("<svg") and re.search(r"sent \d break ", drawn) and "cached read" in found.words
    schedule = (folder / "14.schedule").read_text(encoding="ascii")
    assert schedule in found.words and "unsafe" in found.words and words[1] in found.words
    [row] = json.loads(said.read_text(encoding="utf-8"))["schedules"]
    assert (row["number"], row["seed"], row["kept"]) == (14, HELD_WRITE, ["14.record", "14.schedule"])
    assert row["tried"]["cached_reads"] >= 1 and row["verdict"].startswith("unsafe ") and row["verdict"].endswith(" 2")


@pytest.mark.parametrize(("keep", "kept"), [("all", ["2.record", "2.schedule"]), ("charged", [])])
def test_safe_schedules_are_kept_where_that_is_asked(keep: str, kept: list[str], tmp_path: Path) -> None:
    with named_small() as words:
        had = ran("explore", [*words, "--seed", "1:2", "--folder", tmp_path, "--keep", keep, "--resume"])
    assert had.status == 0, had
    assert sorted(it.name for it in tmp_path.iterdir()) == [*kept, "table"]
    assert not kept or "\n# sent " in (tmp_path / "2.record").read_text(encoding="ascii")
