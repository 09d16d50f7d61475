"""The proved manager of leases, and what is made of its decisions: each is carried out before the next one, in the order told.

One queue of decisions and one thread: so what is to be done on disk is done at the place of its `GoesOn`."""
from __future__ import annotations

import asyncio
import itertools
from collections import deque
from collections.abc import Callable, Sequence
from functools import partial
from typing import TYPE_CHECKING, Any

from smblease import MachineLost, Manager, Rules, Status, Versions
from smblease.drive.headers import Unreadable
from smblease.faults import ToolFault
from smblease.manager_decisions import (Acknowledged, Breaks, Closed, Decision, Decisions, Ended, GoesOn, LeftBehind,
                                        NotAcknowledged, Opened, Refused, Waits, Withdrawn)
from smblease.serve.asks import (Acknowledging, Asked, Changing, Emptying, Granted, Handling, Meanwhile, Pause, StartOver,
                                 Steps, Yielded)
from smblease.serve.disk_status import status_of
from smblease.serve.packets import Answer
from smblease.serve.status_error import EXHAUSTED, RefusedByManager, StatusError

if TYPE_CHECKING:
    from smblease.serve.opens import ManagerClient
    from smblease.serve.server import Server


LOST = (MachineLost, *EXHAUSTED)
AS_DECIDED = itertools.repeat(None)


class Task:
    """Steps that are gone through, each with what came of the one before it."""

    # (the steps that nobody waits for have no answer)
    handling: Handling | Steps

    def __init__(self, handling: Handling | Steps, ended: Callable[[Answer], None]) -> None:
        self._prepare()
        self.handling, self._ended = handling, ended

    def _prepare(self) -> None:
        self.is_over = False
        # what it waits for
        self.asked: Asked | Emptying | None = None
        self.tag = 0
        # whether what it asked was taken back once, and asked again
        self.has_stepped_back = False
        self.pause: Pause | None = None
        # what the manager decided of it, and whose leases it broke by that, where somebody wants to know
        self.decided: list[Decision] | None = None

    def begin(self, _: object) -> Yielded | Answer:
        """Its first step."""
        return next(self.handling)

    def ended(self, answer: Answer) -> None:
        self._ended(answer)


class ManagerHost:
    """Decisions of a call that is made while others are carried out come after those that are left."""

    def __init__(self, rules: Rules, server: Server, has_versions: bool = False) -> None:
        """`has_versions`: there are clients with leases and durable opens of version 2."""
        self._rules = rules
        self._server = server
        self.manager = Manager(rules)
        self.versions = Versions(self.manager) if has_versions else None
        self._tags = itertools.count(1)
        # by their tags, of which no two are the same
        self._waiting: dict[int, Task] = {}
        # those of them that wait to empty a file
        self._emptying: dict[int, Task] = {}
        # creates that stepped back for such a one, by its tag; the manager doesn't know of them
        self._stepped_back: dict[int, list[Task]] = {}
        # an acknowledgment with its task; and what is sent, where that isn't what the decision has
        self._decisions: deque[tuple[Decision | Pause, Task | None, bytes | None]] = deque()
        self._paused: dict[Pause, Task] = {}
        self.is_draining = False
        self._carries: dict[type[Any], Callable[[Any, Task | None, bytes | None], None]] = {
            GoesOn: self._goes_on, Opened: self._goes_on, Closed: self._goes_on, Refused: self._refused, Withdrawn: self._refused,
            Acknowledged: self._acknowledged, NotAcknowledged: self._acknowledged, Pause: self._go_on,
            Breaks: lambda it, _, sent: server.broken(it, sent), Ended: lambda it, _, __: server.ended(it.file_id),
            Waits: lambda _, __, ___: None, LeftBehind: lambda _, __, ___: None}

    @property
    def waiting(self) -> list[Task]:
        return list(self._waiting.values())

    @property
    def stepped_back(self) -> list[Task]:
        """Those of them that start over after a create that empties their file."""
        return [task for tasks in self._stepped_back.values() for task in tasks if self._waiting.get(task.tag) is task]

    def start(self, task: Task) -> None:
        """Begins a task, and goes on until nothing is left that was decided."""
        self._go(task, task.begin, None)
        self.drain()

    def call(self, call: Callable[[Manager], Decisions | None]) -> Decisions:
        """What a call decides is carried out by `drain`."""
        told = self._called(call)
        self._decisions.extend((it, None, sent) for it, sent in told)
        return tuple(it for it, _ in told)

    def cut(self, client: int) -> None:
        """What the client asked and has no answer is forgotten."""
        self.call(lambda manager: manager.cut(client))
        if self.versions:
            self.versions.forget(client)

    def _called(self, call: Callable[..., Decisions | None], *more: object) -> list[tuple[Decision, bytes | None]]:
        """What is decided, each with what is sent for it: it is followed before the manager is called again."""
        try:
            decisions, versions = call(self.manager, *more) or (), self.versions
            if versions is None:
                return list(zip(decisions, AS_DECIDED))
            return [(it, versions.follow(place, self._timeout(it))) for place, it in enumerate(decisions)]
        except LOST:
            self._lost()
            return []

    def _timeout(self, decision: Decision) -> int:
        """Milliseconds that an open lasts without its connection, where its client asks for that."""
        task = self._waiting.get(decision.tag) if isinstance(decision, Opened) else None
        return task.asked.timeout if task and isinstance(task.asked, Asked) else 0

    def _lost(self) -> None:
        """There was no memory: nobody knows any longer who has what open, or caches it."""
        self.manager = Manager(self._rules)
        self.versions = Versions(self.manager) if self.versions else None
        self._stepped_back.clear()
        self._decisions.clear()
        self._decisions.extend((it, None, None) for it in self._paused)
        self.abandon({it.asked.client.number for it in self._waiting.values() if it.asked}, Status.USER_SESSION_DELETED)
        self._server.lost()

    def drain(self) -> None:
        if self.is_draining:
            return
        self.is_draining = True
        decisions, carries = self._decisions, self._carries
        try:
            while decisions or self._emptying:
                try:
                    if decisions:
                        decision, task, sent = decisions.popleft()
                        carries[type(decision)](decision, task, sent)
                    elif not self._goes_on_to_empty():
                        break
                except EXHAUSTED:
                    # It can't be told any more who was sent what.
                    self._lost()
        finally:
            self.is_draining = False

    def withdraw(self, task: Task) -> None:
        """Takes a request back, where it waits in the manager. What closes an open goes on: its client has forgotten that."""
        asked, tag = task.asked, task.tag
        if task.pause:
            self._resumed(task.pause)
            self._refuse(task, StatusError(Status.CANCELLED))
        elif isinstance(asked, Emptying) or task in self.stepped_back:
            self._waiting.pop(tag, None)
            self._refuse(task, StatusError(Status.CANCELLED))
        elif asked and asked.closes is None:
            client, file = asked.client.number, asked.file
            self.call(lambda manager: manager.withdraw(client, tag, file))

    def leave(self, client: ManagerClient, file_ids: list[int], tasks: Sequence[Task]) -> None:
        """A part of a client goes, with these opens and what these tasks wait for; what closes an open goes on."""
        asking = [it for it in tasks if it.asked and it.asked.client is client and it.tag in self._waiting
                  and isinstance(it.asked, Asked) and it.asked.closes is None]
        self._leave(client.number, file_ids, [it.tag for it in asking])
        for task in asking:
            if self._waiting.pop(task.tag, None):
                self._refuse(task, StatusError(Status.USER_SESSION_DELETED))
        self.let_go(tasks)

    def _leave(self, client: int, file_ids: list[int], tags: list[int]) -> None:
        self.call(lambda manager: manager.leave(client, file_ids, tags))
        self._forget(client, tags)

    def take_tag(self) -> int:
        """One under which the manager is asked nothing."""
        return next(self._tags)

    def forget(self, client: int, tag: int) -> None:
        """What was noted under such a tag."""
        self._forget(client, [tag])

    def _forget(self, client: int, tags: list[int]) -> None:
        try:
            if self.versions:
                self.versions.leave(client, tags)
        except LOST:
            self._lost()

    def let_go(self, tasks: Sequence[Task]) -> None:
        """What these wait for that isn't the manager's is taken back."""
        for task in list(tasks):
            if task.pause or isinstance(task.asked, (Changing, Emptying)):
                self.withdraw(task)

    def ask_again(self, gone: ManagerClient) -> None:
        """Changes that were asked for in the name of a client of one open, which is gone, are asked for in their own."""
        for task in self.waiting:
            asked = task.asked
            if isinstance(asked, Changing) and asked.client is gone:
                del self._waiting[task.tag]
                self._ask(task, asked.in_its_own_name())

    def resume(self, pauses: list[Pause]) -> None:
        """These go on once what is decided by now is carried out."""
        self._decisions.extend((it, None, None) for it in pauses)
        pauses.clear()

    def abandon(self, clients: set[int], status: Status) -> None:
        """The manager has forgotten what these clients asked for."""
        forgotten: dict[int, list[Task]] = {it: [] for it in clients}
        for task in self._waiting.values():
            if task.asked and task.asked.client.number in clients:
                forgotten[task.asked.client.number].append(task)
        for tasks in forgotten.values():
            for task in [it for it in tasks if self._waiting.pop(it.tag, None)]:
                self._refuse(task, StatusError(status))

    # Decisions

    def _go_on(self, pause: Pause, _: Task | None, __: object) -> None:
        paused = self._resumed(pause)
        if paused:
            self._send(paused, None)

    def _acknowledged(self, decision: Acknowledged | NotAcknowledged, task: Task | None, _: object) -> None:
        if task is None or task.is_over:
            return
        self._server.sent(decision.client)
        if isinstance(decision, Acknowledged):
            self._send(task, decision.response)
        else:
            self._refuse(task, RefusedByManager(Status(decision.status)))

    def _refused(self, decision: Refused | Withdrawn, _: Task | None, __: object) -> None:
        task = self._waiting.pop(decision.tag, None)
        if task and task.decided is not None:
            task.decided.append(decision)
        if task is None or task.asked is None:
            return
        if isinstance(decision, Withdrawn):
            self._refuse(task, StatusError(Status.CANCELLED))
        else:
            self._server.sent(decision.client)
            self._refuse(task, RefusedByManager(Status(decision.status)))

    def _goes_on(self, decision: Opened | GoesOn | Closed, _: Task | None, sent: bytes | None) -> None:
        task = self._waiting.pop(decision.tag, None)
        if task and task.decided is not None:
            task.decided.append(decision)
        if task is None or task.asked is None:
            # Its client was cut before this was carried out. What nobody knows of nobody can close.
            if isinstance(decision, Opened):
                file_id = decision.file_id
                self.call(lambda manager: manager.scavenge(file_id))
            return
        asked = task.asked
        assert isinstance(asked, Asked)
        fault: StatusError | None = None
        # pylint: disable-next=unidiomatic-typecheck  # (of what it isn't isinstance finds that later)
        if type(decision) is not Opened:
            found, fault = self._done(asked.effect)
        else:
            found = Granted(decision.file_id, decision.answer, decision.answer.write() if sent is None else sent)
            if asked.is_new_open and asked.node and self._server.record.is_kept:
                fault = self._done(partial(self._server.record.opened, asked.client, asked.node))[1]
        self._server.sent(decision.client)
        if fault:
            self._refuse(task, fault)
        else:
            self._go(task, task.handling.send, found)

    def _done(self, effect: Callable[[], object]) -> tuple[object, StatusError | None]:
        """What comes of an effect."""
        try:
            return effect(), None
        except StatusError as refused:
            return None, refused
        except OSError as failed:
            return None, StatusError(status_of(failed))
        except ToolFault:
            raise
        except Exception as broken:  # pylint: disable=broad-exception-caught  # one request's fault ends no other
            return None, StatusError(self._server.failed(broken))

    def _goes_on_to_empty(self) -> bool:
        """Has others give up what those hold that are to be emptied, once all that was decided is carried out; whether there is
        more to carry out by that, or to look at."""
        for tag, task in list(self._emptying.items()):
            asked = task.asked
            if tag not in self._waiting or not isinstance(asked, Emptying):
                del self._emptying[tag]
                if self._step_forward(tag):
                    return True
            elif asked.is_over(self.manager):
                del self._emptying[tag], self._waiting[tag]
                self._send(task, None)
                self._step_forward(tag)
                return True
            else:
                decisions = self.call(partial(self._give_up, asked, tag))
                if task.decided is not None:
                    task.decided += (it for it in decisions if isinstance(it, Breaks))
                if decisions:
                    return True
        return False

    def _give_up(self, asked: Emptying, tag: int, manager: Manager) -> Decisions:
        return asked.call(manager, tag in self._stepped_back)

    def _step_back(self, emptying: Emptying, tag: int) -> None:
        """Creates that wait on the file are taken back until it is emptied; each once, so that none waits for ever. They look
        for its name again then: it may have been renamed."""
        for task in self.waiting:
            asked = task.asked
            if isinstance(asked, Asked) and asked.starts_over and asked.node is emptying.node and not task.has_stepped_back:
                taken_back = Withdrawn(asked.client.number, task.tag)
                told = self._called(partial(self._take_back, asked, task.tag))
                if any(it == taken_back for it, _ in told):
                    task.has_stepped_back = True
                    self._stepped_back.setdefault(tag, []).append(task)
                self._decisions.extend((it, None, sent) for it, sent in told if it != taken_back)

    @staticmethod
    def _take_back(asked: Asked, tag: int, manager: Manager) -> Decisions:
        return manager.withdraw(asked.client.number, tag, asked.file)

    def _step_forward(self, tag: int) -> bool:
        """What stepped back starts over; whether there was any."""
        tasks = [it for it in self._stepped_back.pop(tag, ()) if self._waiting.get(it.tag) is it]
        for task in tasks:
            del self._waiting[task.tag]
            self._go(task, task.handling.throw, StartOver())
        return bool(tasks)

    # Tasks

    def _go(self, task: Task, step: Callable[[Any], Yielded | Answer], given: object) -> None:
        try:
            asked = step(given)
        except StopIteration as stop:
            self._end(task, stop.value)
        except StatusError as refused:
            self._end(task, Answer(refused.status))
        except OSError as failed:
            self._end(task, Answer(status_of(failed)))
        except Unreadable:
            self._end(task, Answer(Status.INVALID_PARAMETER))
        except ToolFault:
            raise
        except Exception as fault:  # pylint: disable=broad-exception-caught  # one request's fault ends no other
            self._end(task, Answer(self._server.failed(fault)))
        else:
            self._ask(task, asked)

    def _ask(self, task: Task, asked: Yielded | Answer) -> None:
        """What comes of a client that isn't connected is dropped, and nothing is decided."""
        if isinstance(asked, Asked):
            if asked.is_free and not self._decisions and asked.is_free(self.manager):
                self._do_at_once(task, asked)
                return
            is_decided = self._put(task, asked)
        elif isinstance(asked, Emptying):
            task.asked, task.tag = asked, next(self._tags)
            self._waiting[task.tag] = self._emptying[task.tag] = task
            self._step_back(asked, task.tag)
            return
        elif isinstance(asked, Answer):
            self._end(task, asked)
            return
        elif isinstance(asked, Acknowledging):
            is_decided = self._acknowledge(task, asked)
        elif isinstance(asked, Meanwhile):
            self._wait_for(task, asked)
            return
        else:
            task.asked, task.pause = None, asked
            self._paused[asked] = task
            return
        if not is_decided and not task.is_over:
            if task.asked:
                self._waiting.pop(task.tag, None)
            self._refuse(task, StatusError(Status.FILE_CLOSED))

    def _do_at_once(self, task: Task, asked: Asked) -> None:
        """A read or a write that the manager would let go on, where nothing else is to be carried out."""
        task.asked = None
        found, fault = self._done(asked.effect)
        if task.decided is not None:
            task.decided.append(GoesOn(asked.client.number, 0))
        self._server.sent(asked.client.number)
        if fault:
            self._refuse(task, fault)
        else:
            self._send(task, found)

    def _put(self, task: Task, asked: Asked) -> bool:
        tag = next(self._tags)
        fault = self._noted(asked, tag) if self.versions else None
        if fault:
            self._refuse(task, fault)
            return True
        task.asked, task.tag = asked, tag
        self._waiting[tag] = task
        told = self._called(asked.call, tag)
        for it, sent in told:
            self._decisions.append((it, None, sent))
            if task.decided is not None and isinstance(it, (Breaks, Waits)):
                task.decided.append(it)
        if not told:
            # (of a client that isn't connected)
            self._forget(asked.client.number, [tag])
        return bool(told)

    def _noted(self, asked: Asked, tag: int) -> StatusError | None:
        """Why it is refused before the manager is asked."""
        try:
            if self.versions:
                asked.note(self.versions, tag)
        except StatusError as refused:
            return refused
        except EXHAUSTED:
            return StatusError(Status.INSUFFICIENT_RESOURCES)
        return None

    def _acknowledge(self, task: Task, asked: Acknowledging) -> bool:
        """It is answered first."""
        client, message = asked.client.number, asked.message
        task.asked = None
        told = self._called(Manager.acknowledge, client, message) if message \
            else self._called(Manager.acknowledge_malformed, client)
        self._decisions.extend((it, None if place else task, sent) for place, (it, sent) in enumerate(told))
        if task.decided is not None:
            task.decided += (it for it, _ in told if isinstance(it, (Acknowledged, Breaks)))
        return bool(told)

    def _wait_for(self, task: Task, asked: Meanwhile) -> None:
        task.asked = None

        def done(future: asyncio.Future[None]) -> None:
            fault = future.exception()
            if fault is None:
                self._send(task, None)
            elif isinstance(fault, OSError):
                self._refuse(task, StatusError(status_of(fault)))
            else:
                raise fault
            self._server.settle()
        self._server.loop.run_in_executor(None, asked.work).add_done_callback(done)

    def _resumed(self, pause: Pause) -> Task | None:
        """Who paused, if that isn't over."""
        task = self._paused.pop(pause, None)
        if task:
            task.pause = None
        return task

    def _send(self, task: Task, found: object) -> None:
        self._go(task, task.handling.send, found)

    def _refuse(self, task: Task, fault: StatusError) -> None:
        self._go(task, task.handling.throw, fault)

    @staticmethod
    def _end(task: Task, answer: Answer | None) -> None:
        task.is_over, task.asked = True, None
        task.ended(answer or Answer(Status.UNSUCCESSFUL))
