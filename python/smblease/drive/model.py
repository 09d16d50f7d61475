"""A model of the profile's server (docs/PROFILE.md), with a switch for each known way in which smbd departs from it."""
from __future__ import annotations

import uuid
from dataclasses import dataclass
from enum import Enum

from smblease import Acknowledgment, CreateAnswer, CreateAsk, Fault, LeaseState, Notification, Response
from smblease.drive.records import Arrival, applied
from smblease.outs import Changed, Opened
from smblease.replies import AcknowledgeDone, Break, Closed, Created, ReadDone, Reply, WriteDone, failed
from smblease.requests import AcknowledgeRequest, CloseRequest, CreateRequest, ReadRequest, Request, WriteRequest
from smblease.values import LARGEST_FILE, Status, granted_form

R, W, H, NONE = LeaseState.R, LeaseState.W, LeaseState.H, LeaseState.NONE
READS, WRITES = 1, 2
Key = tuple[int, uuid.UUID]


class Departure(Enum):
    """What smbd was seen to do otherwise (docs/FOUND_ON_SMBD.md)."""

    OPENS_STAY = "a break that times out takes the lease away and leaves its opens"
    CREATES_WAIT = "a create waits for any other lease of the file that is breaking"
    GIVEN_BACK = "the lease of a dropped disconnected open is given back to its key"
    OPEN_DROPS = "a new open drops the disconnected opens of other keys"
    RISES_WHOLE = "a lease rises only where all that is wanted may be granted"
    NOTHING_BEHIND = "nothing waits after a held request of the same client"
    # where another lease breaks to R, its break to none follows the acknowledgment
    WRITES_GO_ON = "a write never waits"
    BY_ARRIVAL = "held requests are tried again by their arrival, whatever their files"
    # smbd isn't always the same in this
    LAST_FIRST = "held requests are tried again from the last to the first"
    KEPT_ALONE = "an open is kept at a cut only where no other client has the file open"
    OWN_DROPPED = "a new open drops its own key's disconnected open"
    # in its schedule one that the client left under the same key
    REFUSED_BESIDE = "a reconnect is refused while there is another open"
    BREAKING_KEPT = "an open whose lease is breaking is kept at a cut too"
    KEPT_HOLDS = "such an open goes on holding a create that conflicts with it"
    TIMERS_TOGETHER = "the break timers of a connection run out together"
    # also of those that it doesn't conflict with
    BREAKS_ALL = "a create that conflicts breaks the handle caching of all keys"
    KEPT_HOLDS_ALL = "such an open goes on holding any create that waits for its lease"
    BACK_NOT_KEPT = "an open under a lease that was given back isn't kept at a cut"
    # so a lease that was given back is written through while others cache the file
    WRITER_BREAKS_NONE = "a write under a lease that caches writes breaks nothing"
    UNKEPT_GIVES_BACK = "the lease of an open that isn't kept for another client's open is given back to its key"


@dataclass
class Open:
    file_id: int
    client: int
    file: int
    key: Key | None
    access: int
    share: int
    durable: bool
    connected: bool = True


@dataclass
class Lease:
    file: int
    state: LeaseState
    # the state that it is breaking to, and whether a break to none has to follow
    broken_to: LeaseState | None = None
    none_next: bool = False
    was_given_back: bool = False


@dataclass
class Held:
    client: int
    file: int
    request: Request
    place: int


class Model:
    """Answers calls with what arrives at clients, in the order in which it is sent."""

    def __init__(self, files: dict[int, bytes], departures: frozenset[Departure]) -> None:
        self.contents = dict(files)
        self._opens: list[Open] = []
        self._leases: dict[Key, Lease] = {}
        self._given_back: dict[Key, Lease] = {}
        self._held: list[Held] = []
        self._expired: set[Key] = set()
        self._departures = departures
        self._file_ids = 0
        self._outs: list[Arrival] = []

    def taken(self) -> list[Arrival]:
        outs, self._outs = self._outs, []
        return outs

    def join(self, client: int) -> None:
        self._expired = {it for it in self._expired if it[0] != client}

    def receive(self, client: int, request: Request, place: int) -> None:
        """Receives a request, which has this place among all."""
        if isinstance(request, AcknowledgeRequest):
            self._acknowledge(client, request, place)
            self._passes()
            return
        held = Held(client, self._file_of(client, request), request, place)
        refusal = self._refused_at_once(held)
        if refusal is not None:
            self._answer(held, failed(request, refusal))
        elif self._is_behind(held) or not self._tried(held):
            self._held.append(held)
        if isinstance(request, CloseRequest):
            self._passes()

    def cut(self, client: int) -> None:
        self._held = [it for it in self._held if it.client != client]
        for one in [it for it in self._opens if it.client == client and it.connected]:
            one.connected = False
            if not self._is_kept(one):
                self._close(one, dropped={Departure.KEPT_ALONE, Departure.UNKEPT_GIVES_BACK} <= self._departures and one.durable)
        self._passes()

    def expire(self, keys: list[Key]) -> None:
        for key in keys:
            self._expire(key)
        self._passes()

    def _expire(self, key: Key) -> None:
        lease = self._leases[key]
        if Departure.OPENS_STAY in self._departures:
            lease.state, lease.broken_to, lease.none_next = NONE, None, False
        else:
            for one in [it for it in self._opens if it.key == key]:
                self._close(one)
            self._expired.add(key)

    def expired_with(self, key: Key) -> list[Key]:
        """The keys whose breaks run out when the one of this key does."""
        if Departure.TIMERS_TOGETHER not in self._departures:
            return [key]
        return sorted(it for it in self._leases if it[0] == key[0] and self.is_breaking(it))

    def scavenge(self, client: int, file: int) -> bool:
        """The timer of a durable open runs out; whether there is one."""
        kept = self.kept(client, file)
        if kept:
            self._close(kept)
            self._passes()
        return kept is not None

    def kept(self, client: int, file: int) -> Open | None:
        """The client's oldest durable open on a file that waits for it."""
        found = [it for it in self._opens if (it.client, it.file, it.connected) == (client, file, False)]
        return min(found, key=lambda it: it.file_id) if found else None

    def is_breaking(self, key: Key) -> bool:
        """Whether a break of a lease waits for its acknowledgment."""
        return key in self._leases and self._leases[key].broken_to is not None

    # what a request meets

    def _file_of(self, client: int, request: CreateRequest | ReadRequest | WriteRequest | CloseRequest) -> int:
        if isinstance(request, CreateRequest):
            return request.file
        one = self._open_of(client, request.file_id)
        return one.file if one else 0

    def _refused_at_once(self, held: Held) -> int | None:
        if isinstance(held.request, CreateRequest):
            try:
                CreateAsk.read(held.request.contexts)
            except Fault:
                return Status.INVALID_PARAMETER
            return None if held.file in self.contents else Status.OBJECT_NAME_NOT_FOUND
        return None if held.file else Status.FILE_CLOSED

    def _is_behind(self, held: Held) -> bool:
        if Departure.NOTHING_BEHIND in self._departures:
            return False
        return any((it.client, it.file) == (held.client, held.file) and it is not held and it.place < held.place
                   for it in self._held)

    def _open_of(self, client: int, file_id: int) -> Open | None:
        return next((it for it in self._opens if (it.file_id, it.client, it.connected) == (file_id, client, True)), None)

    def _is_kept(self, one: Open) -> bool:
        lease = self._leases.get(one.key) if one.key else None
        if not one.durable or lease is None or H not in lease.state:
            return False
        if lease.was_given_back and Departure.BACK_NOT_KEPT in self._departures:
            return False
        if Departure.KEPT_ALONE in self._departures and any(
                it.file == one.file and it.connected and it.client != one.client for it in self._opens):
            return False
        return lease.broken_to is None or Departure.BREAKING_KEPT in self._departures

    def _tried(self, held: Held) -> bool:
        """Tries a request; answers whether it was answered, and isn't to be held."""
        if isinstance(held.request, CreateRequest):
            return self._tried_create(held, held.request, CreateAsk.read(held.request.contexts))
        if isinstance(held.request, AcknowledgeRequest):
            return True
        one = self._open_of(held.client, held.request.file_id)
        if one is None:
            self._answer(held, failed(held.request, Status.FILE_CLOSED))
        elif isinstance(held.request, ReadRequest):
            self._read(held, held.request, one)
        elif isinstance(held.request, WriteRequest):
            return self._tried_write(held, held.request, one)
        else:
            self._close(one)
            self._answer(held, Closed(one.file_id))
        return True

    def _read(self, held: Held, request: ReadRequest, one: Open) -> None:
        if one.access & READS:
            self._answer(held, ReadDone(one.file_id, self.contents[one.file]))
        else:
            self._answer(held, failed(request, Status.ACCESS_DENIED))

    def _tried_write(self, held: Held, request: WriteRequest, one: Open) -> bool:
        if not one.access & WRITES:
            self._answer(held, failed(request, Status.ACCESS_DENIED))
            return True
        if request.offset + len(request.data) > LARGEST_FILE:
            self._answer(held, failed(request, Status.INVALID_PARAMETER))
            return True
        for _ in range(3):
            wanted = {key: NONE for key in self._other_keys(one.file, one.key) if self._leases[key].state}
            if Departure.WRITER_BREAKS_NONE in self._departures and one.key and W in self._leases[one.key].state:
                wanted = {}
            waits = self._broken(wanted, to_none=True)
            if any(self._leases[key].broken_to for key in waits) and Departure.WRITES_GO_ON not in self._departures:
                return False
            if waits or not wanted:
                break
        change = Changed(one.file, held.client, request.number, request.offset, request.data)
        self.contents[one.file] = applied(change, self.contents[one.file])
        self._answer(held, WriteDone(one.file_id, request.number), change)
        return True

    def _tried_create(self, held: Held, request: CreateRequest, ask: CreateAsk) -> bool:
        key = (held.client, ask.key) if ask.key else None
        if ask.reconnect is not None:
            self._reconnect(held, request, key, ask.reconnect)
            return True
        lease = self._leases.get(key) if key else None
        if lease and lease.file != held.file:
            self._answer(held, failed(request, Status.INVALID_PARAMETER))
            return True
        self._drop_disconnected(held, request, key)
        if Departure.CREATES_WAIT in self._departures and any(
                self.is_breaking(it) for it in self._other_keys(held.file, key)):
            return False
        for _ in range(3):
            wanted = self._wanted(request, key)
            if wanted is None:
                self._answer(held, failed(request, Status.SHARING_VIOLATION))
                return True
            if not wanted:
                break
            if self._broken(wanted):
                return False
        self._grant(held, request, ask, key)
        return True

    def _wanted(self, request: CreateRequest, key: Key | None) -> dict[Key, LeaseState] | None:
        """The keys that a create wants lowered, and what is taken of each; none where it is refused."""
        conflicts = self._conflicts(request)
        others = self._other_keys(request.file, key)
        if not conflicts:
            return {it: self._leases[it].state & ~W for it in others if W in self._leases[it].state}
        conflicting = {it.key for it in conflicts}
        wanted = {it: self._leases[it].state & ~H for it in others if H in self._leases[it].state
                  and (it in conflicting or Departure.BREAKS_ALL in self._departures)}
        return wanted or None

    def _other_keys(self, file: int, key: Key | None) -> list[Key]:
        return sorted({it.key for it in self._opens if it.file == file and it.key and it.key != key})

    # what a request does

    def _drop_disconnected(self, held: Held, request: CreateRequest, key: Key | None) -> None:
        waits = held in self._held and (Departure.KEPT_HOLDS_ALL in self._departures
                                              or Departure.KEPT_HOLDS in self._departures and bool(self._conflicts(request)))
        for one in [it for it in self._opens if it.file == held.file and not it.connected and it.key]:
            departure = Departure.OWN_DROPPED if one.key == key else Departure.OPEN_DROPS
            if departure in self._departures and not (waits and one.key and self.is_breaking(one.key)):
                self._close(one, dropped=True)

    def _conflicts(self, request: CreateRequest) -> list[Open]:
        access, share = request.access.value, request.share.value
        return [it for it in self._opens
                if it.file == request.file and (it.access & ~share or access & ~it.share)]

    def _broken(self, wanted: dict[Key, LeaseState], to_none: bool = False) -> list[Key]:
        """Breaks these keys to these states; answers those that are breaking then."""
        for key in sorted(wanted):
            for one in [it for it in self._opens if it.key == key and not it.connected]:
                self._close(one, dropped=True)
            lease = self._leases.get(key)
            if lease and lease.broken_to is None:
                self._send_break(key, lease, wanted[key])
            elif lease and to_none and lease.broken_to:
                lease.none_next = Departure.WRITES_GO_ON in self._departures
        return [key for key in wanted if self.is_breaking(key)]

    def _send_break(self, key: Key, lease: Lease, state: LeaseState) -> None:
        needs = lease.state != R
        notice = Notification(key[1], lease.state, state, needs)
        lease.broken_to, lease.state = (state, lease.state) if needs else (None, NONE)
        self._outs.append(Arrival(key[0], key[0], Break(notice.write())))

    def _grant(self, held: Held, request: CreateRequest, ask: CreateAsk, key: Key | None) -> None:
        lease = self._granted(held, ask, key) if key else None
        durable = ask.durable and lease is not None and H in lease.state
        self._file_ids += 1
        self._opens.append(Open(self._file_ids, held.client, held.file, key, request.access.value, request.share.value,
                                      durable))
        contexts = CreateAnswer(ask.key, lease.state if lease else NONE, bool(lease and lease.broken_to is not None), durable)
        self._answer(held, Created(request.file, self._file_ids, contexts.write()), Opened(held.file, held.client))

    def _granted(self, held: Held, ask: CreateAsk, key: Key) -> Lease:
        want = granted_form(ask.state)
        alone = all(it.key == key for it in self._opens if it.file == held.file)
        offered = NONE if key in self._expired else want if alone else granted_form(want & ~W)
        back = self._given_back.pop(key, None)
        lease = self._leases.get(key)
        if lease is None and back is not None and Departure.GIVEN_BACK in self._departures:
            lease = self._leases[key] = back
            lease.was_given_back = True
            rises = back.state in offered
        else:
            rises = Departure.RISES_WHOLE not in self._departures or offered == want
        if lease is None:
            lease = self._leases[key] = Lease(held.file, offered)
        elif lease.broken_to is None and lease.state in want and rises:
            lease.state = offered
        return lease

    def _reconnect(self, held: Held, request: CreateRequest, key: Key | None, file_id: int) -> None:
        one = next((it for it in self._opens if (it.file_id, it.client, it.file, it.connected, it.key)
                    == (file_id, held.client, held.file, False, key)), None)
        beside = any(it.file == held.file and it is not one for it in self._opens)
        if one is None or key is None or beside and Departure.REFUSED_BESIDE in self._departures:
            self._answer(held, failed(request, Status.OBJECT_NAME_NOT_FOUND))
            return
        one.connected = True
        lease = self._leases[key]
        contexts = CreateAnswer(key[1], lease.state, lease.broken_to is not None)
        self._answer(held, Created(request.file, one.file_id, contexts.write()))

    def _acknowledge(self, client: int, request: AcknowledgeRequest, place: int) -> None:
        held = Held(client, 0, request, place)
        try:
            given = Acknowledgment.read(request.message)
        except Fault as fault:
            self._answer(held, failed(request, fault.status))
            return
        key = (client, given.key)
        lease = self._leases.get(key)
        if lease is None or lease.broken_to is None or given.state not in lease.broken_to:
            refusal = Status.OBJECT_NAME_NOT_FOUND if lease is None else \
                Status.UNSUCCESSFUL if lease.broken_to is None else Status.REQUEST_NOT_ACCEPTED
            self._answer(held, failed(request, refusal))
            return
        lease.state, lease.broken_to = granted_form(given.state), None
        self._answer(held, AcknowledgeDone(Response(given.key, lease.state).write()))
        if lease.none_next and lease.state:
            self._send_break(key, lease, NONE)
        lease.none_next = False

    def _close(self, one: Open, dropped: bool = False) -> None:
        self._opens.remove(one)
        if one.key and all(it.key != one.key for it in self._opens):
            lease = self._leases.pop(one.key)
            if dropped:
                self._given_back[one.key] = lease

    def _passes(self) -> None:
        answered = True
        while answered:
            answered = False
            waiting = sorted(self._held, key=lambda it: (it.file, it.place))
            if Departure.BY_ARRIVAL in self._departures:
                waiting.sort(key=lambda it: it.place)
            if Departure.LAST_FIRST in self._departures:
                waiting.reverse()
            for held in waiting:
                if held in self._held and not self._is_behind(held) and self._tried(held):
                    self._held.remove(held)
                    answered = True

    def _answer(self, held: Held, reply: Reply, effect: Opened | Changed | None = None) -> None:
        self._outs.append(Arrival(held.client, held.place, reply, effect))
