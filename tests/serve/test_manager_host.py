"""In which order decisions are carried out, where carrying out one of them leads to another call."""
from __future__ import annotations

from collections.abc import Callable
from types import SimpleNamespace
from typing import Any, cast

from smblease import Manager, Rules, Status
from smblease.manager_decisions import Decision, Decisions, GoesOn, Refused, Waits, Withdrawn
from smblease.serve.asks import Asked, Steps
from smblease.serve.manager_host import ManagerHost, Task
from smblease.serve.opens import ManagerClient
from smblease.serve.packets import Answer

CLIENT = ManagerClient(1)


class Scripted(ManagerHost):
    """Its manager decides what the script has for a call. Tags count from 1."""

    def __init__(self, script: list[list[Decision]]) -> None:
        super().__init__(Rules(), cast(Any, SimpleNamespace(sent=lambda client: None)))
        self._script = script
        self.done: list[str] = []
        self.answers: dict[str, int] = {}

    def begin(self, *names: str) -> Task:
        """A task that asks for one after the other."""
        def steps() -> Steps:
            for name in names:
                yield Asked(CLIENT, None, self._next, self._noting(name))
        task = Task(steps(), lambda answer: self._ended(names[0], answer))
        self.start(task)
        return task

    def _next(self, _: Manager, __: int) -> Decisions:
        return tuple(self._script.pop(0))

    def _noting(self, name: str) -> Callable[[], None]:
        return lambda: self.done.append(name)

    def _ended(self, name: str, answer: Answer) -> None:
        self.answers[name] = answer.status


def test_what_is_decided_later_is_done_later() -> None:
    """The second request of `one` is decided while the request of `other` is still to be carried out."""
    host = Scripted([[Waits(1, 1)], [GoesOn(1, 2), GoesOn(1, 1)], [GoesOn(1, 3)]])
    host.begin("other")
    host.begin("one", "after")
    assert host.done == ["one", "other", "after"]


def test_answers_in_another_order_than_requests() -> None:
    """Each goes to the request of its tag."""
    host = Scripted([[Waits(1, 1)], [Waits(1, 2)], [GoesOn(1, 3), Refused(1, 2, Status.FILE_CLOSED), GoesOn(1, 1)]])
    for name in ("first", "second", "third"):
        host.begin(name)
    assert host.done == ["third", "first"]
    assert (host.answers["second"], host.waiting) == (Status.FILE_CLOSED, [])


def test_a_request_that_was_taken_back() -> None:
    host = Scripted([[Waits(1, 1)], [Withdrawn(1, 1)]])
    task = host.begin("one")
    assert host.waiting == [task]
    host.begin("other")
    assert (host.done, host.answers["one"]) == ([], Status.CANCELLED)


def test_a_client_that_is_not_connected() -> None:
    """Nothing is decided, and nothing waits."""
    host = Scripted([[]])
    host.begin("one")
    assert (host.done, host.answers, host.waiting) == ([], {"one": Status.FILE_CLOSED}, [])
