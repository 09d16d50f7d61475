"""Clients that break their rules: filters between the driver and the lines of the proved machines."""
from __future__ import annotations

from smblease import Acknowledgment, Notification
from smblease.processes import Speaker


class Filter:
    """Passes all on; a broken client changes the lines of some answers."""

    def __init__(self, machine: Speaker) -> None:
        self._machine = machine

    def say(self, line: str) -> list[str]:
        return self.changed(line.split(" "), self._machine.say(line))

    def close(self) -> None:
        self._machine.close()

    def changed(self, words: list[str], lines: list[str]) -> list[str]:
        """The lines of an answer to a line of these words."""
        return lines if words else []


class IgnoresBreaks(Filter):
    """Its machine never hears of a break, and nobody acknowledges it."""

    def say(self, line: str) -> list[str]:
        return ["answer quiet"] if line.split(" ")[2:3] == ["break"] else super().say(line)


class GoesOnAfterItsAcknowledgment(Filter):
    """It acknowledges a break, and goes on by the lease that it had."""

    def say(self, line: str) -> list[str]:
        words = line.split(" ")
        if words[2:3] != ["break"]:
            return super().say(line)
        notice = Notification.read(bytes.fromhex(words[3]))
        return [f"request ack {Acknowledgment(notice.key, notice.new).write().hex()}", "answer quiet"]


class AcknowledgesFirst(Filter):
    """It acknowledges a break before the writes that it had buffered."""

    def changed(self, words: list[str], lines: list[str]) -> list[str]:
        return sorted(lines, key=lambda line: 0 if line.startswith("request ack") else 1)


class SettlesOnSending(Filter):
    """It takes a write for done when it sends it."""

    def __init__(self, machine: Speaker) -> None:
        super().__init__(machine)
        self._settled: set[tuple[str, str]] = set()

    def changed(self, words: list[str], lines: list[str]) -> list[str]:
        kept = [line for line in lines if not (line.startswith("settled ") and self._is_settled(line))]
        sent = [(words[1], line.split(" ")[3]) for line in lines if line.startswith("request write ")]
        self._settled.update(sent)
        done = [f"settled {client} {number} done" for client, number in sent]
        return [*kept[:-1], *done, kept[-1]]

    def _is_settled(self, line: str) -> bool:
        _, client, number, _ = line.split(" ")
        return (client, number) in self._settled


class KeepsItsBase(Filter):
    """It answers a read from the file as it once knew it, also after the loss of its lease or connection, where it may
    read by a lease again."""

    def __init__(self, machine: Speaker) -> None:
        super().__init__(machine)
        self._bases: dict[tuple[str, str], str] = {}
        self._believes: dict[tuple[str, str], str] = {}
        self._reading: list[tuple[str, str]] = []

    def say(self, line: str) -> list[str]:
        words = line.split(" ")
        file = (words[1], words[2]) if len(words) > 2 else ("", "")
        if words[0] == "read" and file in self._bases and "R" in self._believes.get(file, ""):
            base = self._bases[file]
            return [f"cachedread {file[0]} {file[1]} {base}", f"answer bytes {base} cached"]
        if words[0] == "read":
            self._reading.append(file)
        return super().say(line)

    def changed(self, words: list[str], lines: list[str]) -> list[str]:
        for line in lines:
            told = line.split(" ")
            if told[0] == "believes":
                self._believes[told[1], told[2]] = told[3]
            if told[:2] == ["answer", "bytes"] and words[0] == "take":
                self._bases[self._reading.pop(0)] = told[2]
        return lines
