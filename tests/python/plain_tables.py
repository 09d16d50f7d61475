"""What a plain manager of leases knows, what it finds there, and what it may be asked."""
from __future__ import annotations

import uuid
from dataclasses import replace
from typing import Callable, Iterable, Optional, Union

from smblease import (Change, CreateAsk, Extent, HeldLease, LeaseState, ListedLease, ListedOpen, ListedRequest, Rules, Status,
                      WaitingKind)
from smblease.manager_decisions import Decision, Ended
from smblease.values import Order, Rise
from tests.python.plain_rules import (ALL, NONE, STATES, Close, Create, H, Held, Key, Lease, Open, Read, Request, W, Want, Write,
                                      granted_form, in_break_order, is_shared, is_within, reads, writes)

LAST = (1 << 64) - 1
Decided = list[Decision]
Listed = tuple[tuple[ListedOpen, ...], tuple[ListedLease, ...]]
KINDS = {Read: WaitingKind.READ, Write: WaitingKind.WRITE, Close: WaitingKind.CLOSE}


class PlainTables:
    """What the manager knows, and what it finds there."""

    def __init__(self, rules: Rules = Rules(), files: int = LAST) -> None:
        self._rules = rules
        self._files = files
        # by FileId, the oldest first
        self._opens: dict[int, Open] = {}
        # a lease is here while an open has its key
        self._leases: dict[Key, Lease] = {}
        # what waits on each file, in order of arrival
        self._queues: dict[int, list[Held]] = {}
        # changes that wait, in order of arrival
        self._changes: list[Change] = []
        self._present: set[int] = set()
        self._expired: set[Key] = set()
        self._last_id = 0
        self._last_timer = 0

    # ---- opens and leases

    def _lease(self, key: Optional[Key]) -> Lease:
        """That of a key without an open, or of no key, holds nothing."""
        return Lease() if key is None else self._leases.get(key, Lease())

    def _opens_on(self, file: int) -> list[Open]:
        return [one for one in self._opens.values() if one.file == file]

    def _connected_open(self, client: int, file_id: int) -> Optional[Open]:
        one = self._opens.get(file_id)
        return one if one and self._is_connected_to(client, one) else None

    def _is_connected_to(self, client: int, one: Open) -> bool:
        return one.client == client and one.connected

    def _is_other(self, own: Optional[Key], one: Open) -> bool:
        """An open without a key counts as a key of its own."""
        return one.key is None or one.key != own

    def _end(self, ending: Iterable[Open]) -> Decided:
        """Opens are no more; with its last open a lease is gone."""
        decided: Decided = []
        for one in ending:
            self._drop(one)
            decided.append(Ended(one.file_id))
        return decided

    def _drop(self, one: Open) -> None:
        del self._opens[one.file_id]
        if one.key is not None and not self._opens_under(one.key):
            del self._leases[one.key]

    def _opens_under(self, key: Key) -> list[Open]:
        return [one for one in self._opens.values() if one.key == key]

    def _outlives_connection(self, one: Open) -> bool:
        lease = self._lease(one.key)
        return one.durable and bool(lease.state & H) and lease.broken_to is None

    def _files_of(self, opens: Iterable[Open]) -> list[int]:
        return list(dict.fromkeys(one.file for one in opens))

    # ---- what is wanted of other keys

    def _wants(self, file: int, test: Callable[[Open], bool], taken: int) -> list[Want]:
        """Of the keys on the file that have an open which passes the test: that they lose what is taken."""
        keys = {one.key for one in self._opens_on(file) if test(one)}
        return [Want(key, self._lease(key).state & ~taken) for key in self._in_order([it for it in keys if it is not None])]

    def _in_order(self, keys: list[Key]) -> list[Key]:
        return sorted(keys, key=in_break_order)

    def _holds(self, one: Open, state: int) -> bool:
        return bool(self._lease(one.key).state & state)

    def _wants_of_others(self, own: Optional[Key], file: int, taken: int) -> list[Want]:
        return self._wants(file, lambda one: self._is_other(own, one) and self._holds(one, taken), taken)

    def _conflicts(self, request: Create, one: Open) -> bool:
        return not is_shared(request.access, one.share) or not is_shared(one.access, request.share)

    def _handle_wants(self, request: Create) -> list[Want]:
        """What a create wants that conflicts with opens."""
        return self._wants(request.file, lambda one: self._conflicts(request, one) and self._is_other(request.key, one)
                           and self._holds(one, H), H)

    def _write_wants(self, request: Create) -> list[Want]:
        """What a create wants that conflicts with none."""
        return self._wants_of_others(request.key, request.file, W)

    def _all_wants(self, own: Optional[Key], file: int) -> list[Want]:
        """What a write wants."""
        return self._wants_of_others(own, file, ALL)

    def _wants_of_extent(self, own: Optional[Key], file: int, extent: Extent) -> list[Want]:
        return self._wants_of_others(own, file, H) if extent is Extent.HANDLES else self._all_wants(own, file)

    # ---- a look at a request: why it is refused, or what it wants

    def _look(self, request: Request) -> Union[Status, list[Want]]:
        if isinstance(request, Create):
            return self._look_at_create(request)
        one = self._connected_open(request.client, request.file_id)
        if one is None:
            return Status.FILE_CLOSED
        if isinstance(request, Write):
            return self._look_at_write(request, one)
        return Status.ACCESS_DENIED if isinstance(request, Read) and not reads(one.access) else []

    def _look_at_write(self, request: Write, one: Open) -> Union[Status, list[Want]]:
        if not writes(one.access):
            return Status.ACCESS_DENIED
        return self._all_wants(one.key, one.file) if request.fits else Status.INVALID_PARAMETER

    def _look_at_create(self, request: Create) -> Union[Status, list[Want]]:
        if request.ask.reconnect is not None:
            one = self._opens.get(request.ask.reconnect)
            return [] if one and self._awaits(request, one) else Status.OBJECT_NAME_NOT_FOUND
        if self._is_leased_elsewhere(request):
            return Status.INVALID_PARAMETER
        if not any(self._conflicts(request, one) for one in self._opens_on(request.file)):
            return self._write_wants(request)
        return self._handle_wants(request) or Status.SHARING_VIOLATION

    def _is_leased_elsewhere(self, request: Create) -> bool:
        return request.key is not None and any(one.file != request.file for one in self._opens_under(request.key))

    def _awaits(self, request: Create, one: Open) -> bool:
        """A disconnected open of this client, on this file, under this key."""
        return not one.connected and one.file == request.file and one.key is not None and one.key == request.key

    # ---- turns

    def _lane(self, request: Request) -> Union[uuid.UUID, int, None]:
        if isinstance(request, Create):
            return request.ask.key
        one = self._connected_open(request.client, request.file_id)
        return one.lease_key if one and one.lease_key is not None else request.file_id

    def _is_after(self, one: Held, earlier: Held) -> bool:
        if earlier.request.client != one.request.client:
            return False
        return self._rules.order is Order.BY_CLIENT or one.lane is not None and one.lane == earlier.lane

    def _has_turn(self, one: Held, earlier: Iterable[Held]) -> bool:
        return not any(self._is_after(one, it) for it in earlier)

    def _is_ready(self, request: Request, wants: list[Want]) -> bool:
        """A write goes on during breaks to none."""
        if isinstance(request, Write):
            return all(self._lease(want.key).broken_to == NONE for want in wants)
        return not wants

    def _waits_for(self, request: Request, lease: Lease) -> bool:
        return lease.broken_to not in (None, NONE) if isinstance(request, Write) else lease.broken_to is not None

    # ---- grants

    def _allowed(self, own: Optional[Key], file: int, want: int) -> int:
        state = granted_form(want)
        return state & ~W if any(self._is_other(own, one) for one in self._opens_on(file)) else state

    def _offered(self, key: Key, file: int, want: int) -> int:
        return NONE if key in self._expired else self._allowed(key, file, want)

    def _may_rise(self, key: Key, want: int, offered: int) -> bool:
        is_new = key not in self._leases
        return self._rules.rise is Rise.AS_FREE or is_new or is_within(granted_form(want), offered)

    def _lease_granted(self, key: Key, file: int, want: int) -> Lease:
        lease, offered = self._lease(key), self._offered(key, file, want)
        if lease.broken_to is not None or not is_within(lease.state, granted_form(want)):
            return lease
        return Lease(offered) if self._may_rise(key, want, offered) else lease

    def _is_durable(self, ask: CreateAsk, lease: Lease) -> bool:
        return ask.durable and bool(lease.state & H)


class PlainQuestions(PlainTables):
    """What the manager may be asked."""

    def connected(self, client: int) -> bool:
        return client in self._present

    def breaking(self, client: int, key: uuid.UUID) -> bool:
        return self._lease((client, key)).broken_to is not None

    def waiting(self, client: int, tag: int, file: int) -> bool:
        return self._request_waits(client, tag, file) or any(it[:3] == (file, client, tag) for it in self._changes)

    def _request_waits(self, client: int, tag: int, file: int) -> bool:
        return any(it.request.client == client and it.request.tag == tag for it in self._queues.get(file, []))

    def left_behind(self, file_id: int) -> bool:
        return file_id in self._opens and not self._opens[file_id].connected

    def has_open(self, file_id: int) -> bool:
        return file_id in self._opens

    def may_read(self, client: int, file_id: int) -> bool:
        return self._goes_at_once(Read(client, 0, file_id))

    def may_write(self, client: int, file_id: int) -> bool:
        return self._goes_at_once(Write(client, 0, file_id, True))

    def _goes_at_once(self, request: Union[Read, Write]) -> bool:
        """It needs no break, and waits after no other."""
        found, one = self._look(request), self._connected_open(request.client, request.file_id)
        if isinstance(found, Status) or one is None or not self._is_ready(request, found):
            return False
        return self._has_turn(Held(request, self._lane(request)), self._queues.get(one.file, []))

    def given_up(self, client: int, key: Optional[uuid.UUID], file: int, extent: Extent) -> bool:
        own = None if key is None else (client, key)
        others = [one for one in self._opens_on(file) if self._is_other(own, one)]
        return not any(self._is_in_the_way(extent, self._lease(one.key)) for one in others)

    def _is_in_the_way(self, extent: Extent, lease: Lease) -> bool:
        if extent is Extent.HANDLES:
            return bool(lease.state & H)
        is_going = lease.broken_to == NONE
        return bool(lease.state & W) or lease.state != NONE and not is_going

    def open_count(self) -> int:
        return len(self._opens)

    def allowed(self, client: int, key: Optional[uuid.UUID], file: int, want: LeaseState) -> LeaseState:
        return STATES[self._allowed(None if key is None else (client, key), file, want.value)]

    def kept(self, client: int, file: int) -> Optional[int]:
        found = (one.file_id for one in self._opens_on(file) if one.client == client and not one.connected)
        return next(found, None)

    def lease(self, client: int, key: uuid.UUID) -> HeldLease:
        lease = self._lease((client, key))
        return HeldLease(STATES[lease.state], None if lease.broken_to is None else STATES[lease.broken_to])

    def opens(self) -> tuple[ListedOpen, ...]:
        return tuple(ListedOpen(it.file_id, it.client, it.file, it.lease_key, it.access, it.share, it.durable, it.connected)
                     for it in self._opens.values())

    def leases(self) -> tuple[ListedLease, ...]:
        listed = []
        for key in sorted(self._leases, key=in_break_order):
            opens, held = [it for it in self._opens.values() if it.key == key], self.lease(*key)
            listed.append(ListedLease(*key, opens[0].file, held.state, held.broken_to, len(opens)))
        return tuple(listed)

    def requests(self) -> tuple[ListedRequest, ...]:
        return tuple(_listed(file, it.request) for file in sorted(self._queues) for it in self._queues[file])

    def changes(self) -> tuple[Change, ...]:
        return tuple(self._changes)


def _listed(file: int, one: Request) -> ListedRequest:
    if isinstance(one, Create):
        ask = one.ask if one.ask.key else replace(one.ask, state=LeaseState.NONE)
        return ListedRequest(file, one.client, one.tag, WaitingKind.CREATE, access=one.access, share=one.share, ask=ask)
    return ListedRequest(file, one.client, one.tag, KINDS[type(one)], file_id=one.file_id)
