"""A picture that `leasecheck draw` printed, read with an XML reader, and what has to hold of it.

Each fact of the record has one mark, in order, with its kind and its words. Those that `judge --explain` names are marked as bad,
and what it says stands below. Each request has a mark too, above the facts that came later. Arrows lead from where a message or
a request was sent to where it is taken, bars reach from a belief to the next one, and a client's line is solid where it is
connected. No arrow crosses words: these stand to the right of a lane's line, sixteen pixels from it, and between the edges of
their row. Requests of one client that wait at once have ways of their own beside its line. Bars have the numbers of their files,
and above all lanes stands what their colors say.
"""
from __future__ import annotations

import re
import xml.etree.ElementTree as xml
from typing import Optional, Sequence

from tests.program.asking import Asked
from tests.program.explaining import Fact
from tests.program.labels import fact_label, look_of, request_label

SVG = "{http://www.w3.org/2000/svg}"
ELEMENTS = {
    SVG +
    name for name in (
        "svg",
        "style",
        "defs",
        "marker",
        "path",
        "rect",
        "line",
        "text",
        "tspan",
        "g",
        "title",
         "circle")}
TOP = 64
ROW = 24
# How many ways of requests have places of their own beside a line.
WAYS = 3
# More of a remark is in its title alone.
ROOM = 62
LEGEND = [("writecaching", "believes that it may cache writes"),
          ("caching", "believes that it may cache, but not writes; a number is that of the file")]
Point = tuple[int, int]


def number(element: xml.Element, name: str) -> int:
    return int(element.attrib[name])


def middle(mark: xml.Element) -> Point:
    [circle] = mark.findall(f"{SVG}circle")
    return number(circle, "cx"), number(circle, "cy")


def look(mark: xml.Element) -> Optional[str]:
    [circle] = mark.findall(f"{SVG}circle")
    return circle.get("class")


def label(mark: xml.Element) -> tuple[Point, Optional[str]]:
    """Where it begins, and the words."""
    [words] = [it for it in mark.findall(f"{SVG}text") if it.get("class") == "label"]
    return (number(words, "x"), number(words, "y")), words.text


def ends(line: xml.Element) -> tuple[Point, Point]:
    return (number(line, "x1"), number(line, "y1")), (number(line, "x2"), number(line, "y2"))


def on_server(kind: str) -> bool:
    return kind in ("start", "expired", "sent", "opened", "changed")


def edge(row: int) -> int:
    """How far down a row begins."""
    return TOP + ROW * row


def is_of(whole: str, shown: Optional[str], title: Optional[str]) -> bool:
    """Whether a remark is shown whole, or as a beginning that ends with a word or with a whole byte of digits, and whole in the
    title."""
    if len(whole) <= ROOM:
        return (shown, title) == (whole, None)
    beginning = (shown or "").removesuffix("...")
    digits = re.search(r"[0-9a-f]*$", beginning)
    ends_word = whole[len(beginning):].startswith(" ")
    return title == whole and f"{beginning}..." == shown and whole.startswith(beginning) and len(beginning) > 40 \
        and (ends_word or (digits is not None and len(digits[0]) % 2 == 0))


class Picture:
    def __init__(self, text: str, facts: Sequence[Fact], messages: Sequence[str] = (), asked: Sequence[Asked] = (),
                 comments: Sequence[str] = ()) -> None:
        """`messages` are those of the facts `sent` and `took`, in their order, where they are known; `comments` are those before
        facts, one for each."""
        self.root = xml.fromstring(text)
        self.facts = facts
        self.messages = messages
        self.asked = asked
        self.comments = comments
        groups = self.root.findall(f"{SVG}g")
        self.marks = [it for it in groups if it.get("class") != "request"]
        self.requests = [it for it in groups if it.get("class") == "request"]
        self.rows = [index + sum(it.facts <= index for it in asked) for index in range(len(facts))] + [len(facts) + len(asked)]
        self.clients = sorted({int(fact.client) for fact in facts if fact.client})
        left = (len(self.clients) + 1) // 2
        order: list[Optional[int]] = [*self.clients[:left], None, *self.clients[left:]]
        headings = {it.text or "": number(it, "x") for it in self.root.findall(f"{SVG}text") if it.get("class") == "heading"}
        names = ["server" if it is None else f"client {it}" for it in order]
        assert sorted(headings, key=lambda it: headings[it]) == names, (headings, names)
        self.lanes: dict[Optional[str], int] = {
            None if it is None else str(it): headings[name] + 30 for it, name in zip(order, names)}

    @property
    def lane(self) -> int:
        """How wide a lane is."""
        return 300 if len(self.clients) <= 4 else 150

    @property
    def width(self) -> int:
        """How wide all lanes are."""
        return 60 + self.lane * (len(self.clients) + 1) + (60 if len(self.clients) <= 4 else 190)

    def look_at_legend(self) -> None:
        samples = [it.get("class") for it in self.root.findall(f"{SVG}rect") if it.get("class") in dict(LEGEND)]
        words = [it.text for it in self.root.findall(f"{SVG}text") if it.get("class") == "number"]
        assert list(zip(samples, words)) == LEGEND

    def notes(self) -> list[str]:
        [notes] = [it for it in self.root.findall(f"{SVG}text") if it.get("class") == "notes"]
        return [it.text or "" for it in notes.findall(f"{SVG}tspan")]

    def look_at_marks(self, bad: Sequence[int]) -> None:
        assert len(self.marks) == len(self.facts), (len(self.marks), len(self.facts))
        for place, (mark, fact) in enumerate(zip(self.marks, self.facts), 1):
            assert mark.get("id") == f"fact-{place}", place
            assert mark.get("class") == fact.kind + (" bad" if place in bad else ""), (place, mark.get("class"), bad)
            assert mark.findtext(f"{SVG}title") == fact.in_words(), place
            x, y = middle(mark)
            assert x == self.lanes[None if on_server(fact.kind) else fact.client], place
            assert y == edge(self.rows[place - 1]) + ROW // 2, place

    def look_at_labels(self) -> None:
        """Each label is whole, and so are the numbers of facts on the left."""
        messages = iter(self.messages)
        for place, (mark, fact) in enumerate(zip(self.marks, self.facts), 1):
            message = next(messages, None) if fact.kind in ("sent", "took") else None
            x, y = middle(mark)
            assert label(mark) == ((x + 16, y + 4), fact_label(fact, message)), place
            assert look(mark) == look_of(fact.kind), place
            [count] = [it for it in mark.findall(f"{SVG}text") if it.get("class") == "number"]
            assert (count.text, number(count, "x"), number(count, "y")) == (str(place), 8, y + 4), place
        assert next(messages, None) is None

    def look_at_comments(self) -> None:
        """Each stands in the row of its fact, to the right of the lanes."""
        said = [(edge(row) + 16, words) for row, words in zip(self.rows, self.comments) if words]
        remarks = [it for it in self.root.findall(f"{SVG}text") if it.get("class") == "remark"]
        assert [(number(it, "x"), number(it, "y")) for it in remarks] == [(self.width, y) for y, _ in said]
        assert all(is_of(words, it.text, it.findtext(f"{SVG}title")) for it, (_, words) in zip(remarks, said)), said

    def look_at_size(self) -> None:
        """The picture holds all lanes, rows and notes, and comments have a column of their own."""
        width = max(self.width, 1020) + (480 if any(self.comments) else 0)
        height = edge(self.rows[-1]) + 48 + 18 * len(self.notes()) + 24
        assert (number(self.root, "width"), number(self.root, "height")) == (width, height)
        assert self.root.get("viewBox") == f"0 0 {width} {height}"
        assert [self.lanes[it] for it in self.lanes] == [150 + self.lane * lane for lane in range(len(self.lanes))]
        for mark, fact in zip(self.marks, self.facts):
            bands = [it for it in mark.findall(f"{SVG}rect") if it.get("class") == "row"]
            assert len(bands) == ("bad" in (mark.get("class") or "").split()), fact
            assert all((number(it, "x"), number(it, "width"), number(it, "height")) == (0, self.width, ROW) for it in bands), fact

    def way(self, index: int) -> int:
        """The first place beside the line that no request of the client has which waits when this one is sent."""
        mine = self.asked[index]
        row = mine.facts + index
        waiting = [earlier for earlier, it in enumerate(self.asked[:index])
                   if it.client == mine.client and (it.end is None or it.end > row)]
        taken = {self.way(earlier) for earlier in waiting}
        return next((way for way in range(WAYS) if way not in taken), WAYS - 1)

    def look_at_requests(self) -> None:
        assert len(self.requests) == len(self.asked), (len(self.requests), len(self.asked))
        for place, (mark, asked) in enumerate(zip(self.requests, self.asked), 1):
            assert mark.get("id") == f"request-{place}", place
            assert mark.findtext(f"{SVG}title") == f"client {asked.client} sends: {asked.words}", place
            lane, server = self.lanes[str(asked.client)], self.lanes[None]
            row = asked.facts + place - 1
            away = 5 + 3 * self.way(place - 1)
            assert middle(mark) == (lane, edge(row) + ROW // 2), place
            x, last = lane + away if server > lane else lane - away, edge(self.rows[-1] if asked.end is None else asked.end)
            way = [((x, edge(row) + ROW // 2), (x, last))]
            assert list(map(ends, mark.findall(f"{SVG}line"))) == way + [((x, last), (server, last))] * asked.is_taken, place
            assert look(mark) == "asking", place
            assert label(mark) == ((lane + 16, edge(row) + 16), request_label(asked.words)), place

    def look_at_arrows(self) -> None:
        sent: dict[str, list[int]] = {}
        taken: dict[str, int] = {}
        for place, fact in enumerate(self.facts, 1):
            expected, client = [], fact.client or ""
            if fact.kind == "joined":
                sent[client], taken[client] = [], 0
            elif fact.kind == "sent":
                sent.setdefault(client, []).append(place)
            elif fact.kind == "took":
                count = taken.get(client, 0)
                taken[client] = count + 1
                if count < len(sent.get(client, [])):
                    (server, begin), (end, row) = middle(self.marks[sent[client][count] - 1]), middle(self.marks[place - 1])
                    turn = (server + 5 if end > server else server - 5, row - ROW // 2)
                    expected = [((turn[0], begin), turn), (turn, (end, turn[1]))]
            assert [ends(it) for it in self.marks[place - 1].findall(f"{SVG}line")] == expected, place

    def look_at_beliefs(self) -> None:
        for place, fact in enumerate(self.facts, 1):
            bars = [it for it in self.marks[place - 1].findall(f"{SVG}rect") if it.get("class") != "row"]
            if fact.kind != "believes" or fact.words[3] == "none":
                assert not bars, place
                continue
            later = [at for at, other in enumerate(self.facts[place:], place + 1)
                     if other.kind == "believes" and other.words[1:3] == fact.words[1:3]]
            begin = middle(self.marks[place - 1])[1]
            end = edge(self.rows[later[0] - 1 if later else len(self.facts)]) + ROW // 2
            [bar] = bars
            assert bar.get("class") == ("writecaching" if "W" in fact.words[3] else "caching"), place
            assert (number(bar, "y"), number(bar, "height")) == (begin, end - begin), place
            column = 1 + (int(fact.words[2]) - 1) % 8
            assert (number(bar, "x"), number(bar, "width")) == (self.lanes[fact.client] - 12 - 10 * column, 8), place
            [file] = [it for it in self.marks[place - 1].findall(f"{SVG}text") if it.get("class") == "file"]
            assert (file.text, number(file, "x"), number(file, "y")) == (fact.words[2], number(bar, "x") + 1, begin + 10), place

    def look_at_lanes(self) -> None:
        """Each reaches from the first row to below the last one."""
        whole = edge(0) + ROW // 2, edge(self.rows[-1]) + ROW // 2
        expected = {"lane": {(self.lanes[str(it)], *whole) for it in self.clients}, "connection": {(self.lanes[None], *whole)}}
        for kind, lanes in expected.items():
            lines = map(ends, self.root.findall(f"{SVG}line[@class='{kind}']"))
            found = {(one[0], one[1], two[1]) for one, two in lines}
            assert {it for it in found if kind == "lane" or it[0] == self.lanes[None]} == lanes, (found, lanes)

    def look_at_connections(self) -> None:
        rows = [edge(it) + ROW // 2 for it in self.rows]
        for client in map(str, self.clients):
            expected, since = [], None
            for place, fact in enumerate(self.facts):
                if fact.client != client:
                    continue
                if fact.kind == "joined" and since is None:
                    since = rows[place]
                elif fact.kind == "dropped" and since is not None:
                    expected.append((since, rows[place]))
                    since = None
            if since is not None:
                expected.append((since, rows[-1]))
            found = [(one[1], two[1]) for one, two in map(ends, self.root.findall(f"{SVG}line[@class='connection']"))
                     if one[0] == self.lanes[client]]
            assert found == expected, (client, found, expected)

    def look_at(self, explained: str) -> None:
        """Compares it with what `judge --explain` says of the same facts."""
        lines = {fact.line: place for place, fact in enumerate(self.facts, 1)}
        assert self.notes() == explained.splitlines(), (self.notes(), explained)
        self.look_at_marks([lines[int(it)] for it in re.findall(r"^line ([0-9]+): ", explained, re.M)])
        self.look_at_legend()
        self.look_at_labels()
        self.look_at_comments()
        self.look_at_size()
        self.look_at_requests()
        self.look_at_arrows()
        self.look_at_beliefs()
        self.look_at_lanes()
        self.look_at_connections()
        assert {it.tag for it in self.root.iter()} <= ELEMENTS
