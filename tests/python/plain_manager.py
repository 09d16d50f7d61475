"""A plain manager of leases: the rules of docs/PROFILE.md in dictionaries and lists, written apart from the proved one, with
which it is compared. It takes the calls of smblease.Manager, and gives the same decisions and answers."""
from __future__ import annotations

import uuid
from typing import Callable, Iterable, Optional, Sequence, Union

from smblease import Access, Acknowledgment, Change, CreateAnswer, CreateAsk, Extent, Notification, Response, Share, Status
from smblease.manager_decisions import (Acknowledged, Breaks, Closed, Decision, Decisions, Ended, GoesOn, LeftBehind,
                                        NotAcknowledged, Opened, Refused, Waits, Withdrawn)
from tests.python.plain_rules import (STATES, Close, Create, Held, Key, Lease, Open, Outcome, Read, Request, Want, Write,
                                      granted_form, is_within, needs_acknowledgment)
from tests.python.plain_tables import LAST, Decided, Listed, PlainQuestions

# A try begins again after its breaks: one round may break handles, one writes, and the last finds nothing more.
ROUNDS = 3


class PlainManager(PlainQuestions):
    # ---- clients come and go, timers run out

    def join(self, client: int) -> None:
        """A client that is connected already joins in vain."""
        if client not in self._present:
            self._present.add(client)
            self._forget_expired(client)

    def _forget_expired(self, client: int) -> None:
        self._expired = {key for key in self._expired if key[0] != client}

    def cut(self, client: int) -> Decisions:
        self._changes = [it for it in self._changes if it.client != client]
        if client not in self._present:
            return ()
        files = self._files_of_client(client)
        decided = self._part([one for one in self._opens.values() if one.client == client])
        self._present.remove(client)
        self._forget(lambda request: request.client == client)
        return self._all_after(decided, files)

    def leave(self, client: int, file_ids: Sequence[int], tags: Sequence[int] = ()) -> Decisions:
        self._changes = [it for it in self._changes if not self._is_left(it, client, tags)]
        if client not in self._present:
            return ()
        files = self._files_of_client(client)
        decided = self._part([one for one in self._opens.values() if one.client == client and one.file_id in file_ids])
        self._forget(lambda request: self._is_left(request, client, tags))
        return self._all_after(decided, files)

    def _files_of_client(self, client: int) -> list[int]:
        return self._files_of(one for one in self._opens.values() if self._is_connected_to(client, one))

    def _is_left(self, request: Union[Request, Change], client: int, tags: Sequence[int]) -> bool:
        return request.client == client and request.tag in tags

    def _part(self, parting: list[Open]) -> Decided:
        """Those that are connected end, or stay and wait for their client."""
        connected = [one for one in parting if one.connected]
        staying = [one for one in connected if self._outlives_connection(one)]
        decided = self._end([one for one in connected if one not in staying])
        for one in staying:
            one.connected = False
        return decided + [LeftBehind(one.file_id) for one in staying]

    def _forget(self, test: Callable[[Request], bool]) -> None:
        for file in list(self._queues):
            self._queue(file, [it for it in self._queues[file] if not test(it.request)])

    def expire(self, client: int, key: uuid.UUID) -> Decisions:
        if not self.breaking(client, key):
            return ()
        files = self._files_of(self._opens_under((client, key)))
        decided = self._end(self._opens_under((client, key)))
        self._expired.add((client, key))
        return self._all_after(decided, files)

    def run_out(self, timer: int) -> Decisions:
        """Only the timer of the break that the lease waits for is of any effect."""
        for key, lease in self._leases.items():
            if lease.timer == timer:
                return self.expire(*key)
        return ()

    def scavenge(self, file_id: int) -> Decisions:
        if not self.left_behind(file_id):
            return ()
        one = self._opens[file_id]
        return self._all_after(self._end([one]), [one.file])

    # ---- its host starts again

    def restart(self) -> Listed:
        """Opens that would outlive their connections wait for their clients. Nothing else is left but the last FileId."""
        self._part(list(self._opens.values()))
        self._queues, self._changes, self._present, self._expired, self._last_timer = {}, [], set(), set(), 0
        self._leases = {key: Lease(lease.state) for key, lease in self._leases.items()}
        return self.opens(), self.leases()

    # ---- requests

    def create(self, client: int, tag: int, file: int, access: Access, share: Share, ask: CreateAsk = CreateAsk()) -> Decisions:
        return self._receive(Create(client, tag, file, access, share, ask))

    def read(self, client: int, tag: int, file_id: int) -> Decisions:
        return self._receive(Read(client, tag, file_id))

    def write(self, client: int, tag: int, file_id: int, fits: bool = True) -> Decisions:
        return self._receive(Write(client, tag, file_id, fits))

    def close_open(self, client: int, tag: int, file_id: int) -> Decisions:
        return self._receive(Close(client, tag, file_id))

    def _receive(self, request: Request) -> Decisions:
        if request.client not in self._present:
            return ()
        if not isinstance(request, Close):
            return tuple(self._arrived(request))
        files = [one.file for one in self._opens.values() if one.file_id == request.file_id]
        return self._all_after(self._arrived(request), files, request)

    def _arrived(self, request: Request) -> Decided:
        file = self._file_of(request)
        if isinstance(file, Status):
            return [Refused(request.client, request.tag, file)]
        one, waiting = Held(request, self._lane(request)), self._queues.get(file, [])
        decided: Decided = []
        outcome = self._tried(request, decided) if self._has_turn(one, waiting) else Outcome.WAITS
        if outcome is Outcome.WAITS:
            self._queue(file, waiting + [one])
            return decided + [Waits(request.client, request.tag)]
        return decided + self._concluded(request, outcome)

    def _file_of(self, request: Request) -> Union[int, Status]:
        """The file that a request is about, or why it is refused as it comes."""
        if isinstance(request, Create):
            return request.file if 1 <= request.file <= self._files else Status.OBJECT_NAME_NOT_FOUND
        one = self._connected_open(request.client, request.file_id)
        return Status.FILE_CLOSED if one is None else one.file

    def _queue(self, file: int, waiting: list[Held]) -> None:
        self._queues[file] = waiting
        if not waiting:
            del self._queues[file]

    # ---- tries

    def _tried(self, request: Request, decided: Decided) -> Union[Outcome, Status]:
        """The opens that end in the rounds of a try come before its breaks."""
        ended: list[Ended] = []
        breaks: list[Breaks] = []
        outcome = self._rounds(request, ended, breaks)
        decided += self._in_effect(ended, breaks)
        return outcome

    def _in_effect(self, ended: list[Ended], breaks: list[Breaks]) -> Decided:
        return [*sorted(ended, key=lambda it: it.file_id), *breaks]

    def _rounds(self, request: Request, ended: list[Ended], breaks: list[Breaks]) -> Union[Outcome, Status]:
        for _ in range(ROUNDS):
            found = self._look(request)
            if isinstance(found, Status):
                return found
            if self._is_ready(request, found):
                return Outcome.READY
            self._meet(found, ended, breaks)
            if any(self._waits_for(request, self._lease(want.key)) for want in found):
                return Outcome.WAITS
        return Outcome.WAITS

    def _meet(self, wants: list[Want], ended: list[Ended], breaks: list[Breaks]) -> None:
        for want in wants:
            left = self._opens_that_go(want.key)
            ended += [Ended(one.file_id) for one in left]
            self._end(left)
            lease = self._leases.get(want.key)
            if lease and self._is_to_be_broken(lease):
                breaks.append(self._broken(want, lease))

    def _opens_that_go(self, key: Key) -> list[Open]:
        """The disconnected opens of a key that is wanted."""
        return [one for one in self._opens_under(key) if not one.connected]

    def _is_to_be_broken(self, lease: Lease) -> bool:
        return lease.broken_to is None

    def _broken(self, want: Want, lease: Lease) -> Breaks:
        client, key = want.key
        is_asked = needs_acknowledgment(lease.state)
        notification = Notification(key, STATES[lease.state], STATES[want.lowered], is_asked)
        if not is_asked:
            lease.state = want.lowered
            return Breaks(client, notification)
        self._last_timer += 1
        lease.broken_to, lease.timer = want.lowered, self._last_timer
        return Breaks(client, notification, self._last_timer)

    # ---- answers

    def _concluded(self, request: Request, outcome: Union[Outcome, Status]) -> Decided:
        client, tag = request.client, request.tag
        if isinstance(outcome, Status):
            return [Refused(client, tag, outcome)]
        if isinstance(request, Create):
            return [self._reconnected(request) if request.ask.reconnect is not None else self._opened(request)]
        if isinstance(request, Close):
            self._drop(self._opens[request.file_id])
            return [Closed(client, tag)]
        return [GoesOn(client, tag)]

    def _opened(self, request: Create) -> Decision:
        if self._last_id == LAST:
            return Refused(request.client, request.tag, Status.INSUFFICIENT_RESOURCES)
        lease = Lease()
        if request.key is not None:
            lease = self._lease_granted(request.key, request.file, request.ask.state.value)
            self._leases[request.key] = lease
        self._last_id += 1
        is_durable = self._is_durable(request.ask, lease)
        self._opens[self._last_id] = Open(self._last_id, request.client, request.file, request.ask.key, request.access,
                                          request.share, is_durable)
        return Opened(request.client, request.tag, self._last_id, self._answer(request, lease, is_durable))

    def _reconnected(self, request: Create) -> Decision:
        file_id = request.ask.reconnect
        assert file_id is not None
        self._opens[file_id].connected = True
        return Opened(request.client, request.tag, file_id, self._answer(request, self._lease(request.key), False))

    def _answer(self, request: Create, lease: Lease, durable: bool) -> CreateAnswer:
        return CreateAnswer(request.ask.key, STATES[lease.state], lease.broken_to is not None, durable)

    # ---- acknowledgments

    def acknowledge(self, client: int, given: Acknowledgment) -> Decisions:
        """What waits is tried again whatever became of the acknowledgment."""
        if client not in self._present:
            return ()
        files = self._files_of(self._opens_under((client, given.key)))
        return self._all_after([self._acknowledged(client, given)], files)

    def acknowledge_malformed(self, client: int) -> Decisions:
        refused = NotAcknowledged(client, Status.INVALID_PARAMETER)
        return self._all_after([refused], []) if client in self._present else ()

    def _acknowledged(self, client: int, given: Acknowledgment) -> Decision:
        lease = self._leases.get((client, given.key))
        if lease is None:
            return NotAcknowledged(client, Status.OBJECT_NAME_NOT_FOUND)
        if lease.broken_to is None:
            return NotAcknowledged(client, Status.UNSUCCESSFUL)
        if not is_within(given.state.value, lease.broken_to):
            return NotAcknowledged(client, Status.REQUEST_NOT_ACCEPTED)
        lease.state, lease.broken_to, lease.timer = granted_form(given.state.value), None, None
        return Acknowledged(client, Response(given.key, STATES[lease.state]))

    # ---- what waits

    def withdraw(self, client: int, tag: int, file: int) -> Decisions:
        if self._request_waits(client, tag, file):
            self._queue(file, [it for it in self._queues[file] if (it.request.client, it.request.tag) != (client, tag)])
            return self._all_after([Withdrawn(client, tag)], [file])
        staying = [it for it in self._changes if it[:3] != (file, client, tag)]
        is_there, self._changes = len(staying) < len(self._changes), staying
        return (Withdrawn(client, tag),) if is_there else ()

    def give_up(self, client: int, key: Optional[uuid.UUID], file: int, extent: Extent) -> Decisions:
        return self._changes_after(self._others_give_up(client, key, file, extent), [file])

    def _others_give_up(self, client: int, key: Optional[uuid.UUID], file: int, extent: Extent) -> Decided:
        """What other keys give up, and what of the requests that wait goes by that."""
        ended: list[Ended] = []
        breaks: list[Breaks] = []
        self._meet(self._wants_of_extent(None if key is None else (client, key), file, extent), ended, breaks)
        return [*self._after(self._in_effect(ended, breaks))]

    def _all_after(self, decided: Decided, files: Iterable[int], request: Optional[Request] = None) -> Decisions:
        """Requests that wait are tried again, and then changes, after a call about these files."""
        return self._changes_after([*self._after(decided)], files, request)

    def _after(self, decided: Decided) -> Decisions:
        """What waits is tried again: file by file in the order of their numbers, until a pass answers nothing."""
        for file in sorted(self._queues):
            while self._passes(file, decided):
                pass
        return tuple(decided)

    def _passes(self, file: int, decided: Decided) -> bool:
        """One pass over what waits on a file, and whether it answered any."""
        passed: list[Held] = []
        waiting = self._queues.get(file, [])
        for one in waiting:
            outcome = self._tried(one.request, decided) if self._has_turn(one, passed) else Outcome.WAITS
            if outcome is Outcome.WAITS:
                passed.append(one)
            else:
                decided += self._concluded(one.request, outcome)
        self._queue(file, passed)
        return len(passed) < len(waiting)

    # ---- changes

    def change(self, client: int, tag: int, key: Optional[uuid.UUID], file: int, extent: Extent) -> Decisions:
        one = Change(file, client, tag, key, extent)
        decided = [*self._changes_after(self._asked_for(one), [])]
        if self._is_free(one):
            return *decided, GoesOn(client, tag)
        self._changes.append(one)
        return *decided, Waits(client, tag)

    def _asked_for(self, one: Change) -> Decided:
        return self._others_give_up(one.client, one.key, one.file, one.extent)

    def _asks_again(self, one: Change) -> Decided:
        return self._asked_for(one)

    def _is_free(self, one: Change) -> bool:
        return self.given_up(one.client, one.key, one.file, one.extent)

    def _changes_after(self, decided: Decided, files: Iterable[int], request: Optional[Request] = None) -> Decisions:
        """After a call about these files changes are tried again, file by file: others give up what is in their way, leases that
        came since too, and those go on that are free then. Where another request closed an open it is so on every file."""
        own = request and (request.client, request.tag)
        if any(isinstance(it, Closed) and (it.client, it.tag) != own for it in decided):
            files = dict.fromkeys(it.file for it in self._changes)
        for file in files:
            self._try_changes(file, decided)
        return tuple(decided)

    def _try_changes(self, file: int, decided: Decided) -> None:
        for one in [it for it in self._changes if it.file == file]:
            decided += self._asks_again(one)
        self._let_go(file, decided)

    def _let_go(self, file: int, decided: Decided) -> None:
        free = [it for it in self._changes if it.file == file and self._is_free(it)]
        decided += [GoesOn(it.client, it.tag) for it in free]
        self._changes = [it for it in self._changes if it not in free]
