"""A manager of leases and durable opens (MS-SMB2 3.3), for a server that keeps its files itself. It has no sockets and no clock.

Clients, files and tags are numbers of 64 bits that its host chooses, files from 1 on. A call passes in what happens, and gives
decisions, which the host carries out in their order, one after the other: include/smblease_manager.h leads through a break.
"""
from __future__ import annotations

import ctypes
import uuid
from typing import Callable, Dict, Optional, Sequence, Tuple

from smblease import _structs as structs
from smblease._arguments import LONG, are_longs, key_field, longs, number
from smblease._handles import Outcome
from smblease._library import in_words, library
from smblease._tags import WaitingTags
from smblease.contexts import NO_ASK, CreateAsk, ask_struct
from smblease.faults import KeptFault
from smblease.manager_decisions import Decision, Decisions, decision_of
from smblease.manager_listings import ManagerListings
from smblease.manager_questions import ManagerQuestions, key_struct, maybe_key_struct
from smblease.messages import Acknowledgment
from smblease.values import Access, Extent, LeaseState, Order, Rise, Rules, Share

_create, _read, _write, _close = map(in_words, ("manager_create", "manager_read", "manager_write", "manager_close"))
_change = in_words("manager_change")
_decision_count, _read_decision = in_words("manager_decision_count"), in_words("manager_decision_at")
_NOTHING_ASKED = ask_struct(NO_ASK)
_REFUSED: Dict[int, str] = {Outcome.DAMAGED: "the bytes of kept opens are damaged",
                            Outcome.UNLAWFUL: "the kept opens would break a law of managers"}


class Manager(ManagerQuestions, ManagerListings):
    """A manager where nothing is open and no client has joined, of rules that are named: `by-key,whole` is what Windows and
    Samba were seen to do. Under `by-client`, the profile's, a client that opens a file again without a key while it caches
    writes waits for its own lease's break, and its write-back waits behind that until the timer takes the lease. `files` is the
    last number of a file.

    `kept` is what `export` gave before a restart of its host: the opens of it wait for their clients. KeptFault is raised where
    it is damaged, or would break a law of managers.

    A request or a change that comes under a tag under which one waits raises ValueError, and changes nothing.

    Where memory runs out within a call, MachineLost is raised: the host cuts all connections, lets go of all that is open, and
    makes a new manager.

    >>> with Manager(Rules.of("by-key,whole")) as manager:
    ...     for client in (1, 2):
    ...         manager.join(client)
    ...     ask = CreateAsk(uuid.UUID(int=1), LeaseState.of("RWH"))
    ...     [opened] = manager.create(1, 10, 5, Access.READ_WRITE, Share.READ_WRITE, ask)
    ...     breaks, waits = manager.create(2, 20, 5, Access.READ, Share.READ_WRITE)
    >>> opened.file_id, str(breaks.notification.new), waits
    (1, 'RH', Waits(client=2, tag=20))
    """

    def __init__(self, rules: Rules, files: int = LONG, kept: Optional[bytes] = None) -> None:
        super().__init__(structs.Manager(), library.smblease_manager_free, "manager")
        if not isinstance(rules, Rules):
            raise TypeError(f"rules are needed, as Rules.of('by-key,whole'), and not {rules!r}")
        self._room = structs.ManagerDecision()
        self._tags = WaitingTags()
        self._reference = ctypes.byref(self._handle)
        self._place, self._room_place = ctypes.addressof(self._handle), ctypes.addressof(self._room)
        given = self._reference, Order(rules.order).value, Rise(rules.rise).value, number(files, LONG, "files")
        made = library.smblease_manager_new(*given) if kept is None else library.smblease_manager_import(*given, kept, len(kept))
        if made in _REFUSED:
            raise KeptFault(_REFUSED[made])
        if made != Outcome.DONE:
            raise MemoryError("there is no memory for a manager")

    def _decided(self, call: Callable[..., int], *arguments: object) -> Decisions:
        with self._lock:
            return self._decisions(call, arguments)

    def _requested(self, call: Callable[..., int], client: int, tag: int, *more: int) -> Decisions:
        """What is decided of a request or a change, whose tag mustn't be taken."""
        lock = self._lock
        # (sooner than `with`)
        lock.acquire()
        try:
            self._tags.check(tag)
            return self._decisions(call, (self._place, client, tag, *more))
        finally:
            lock.release()

    def _decisions(self, call: Callable[..., int], arguments: Tuple[object, ...]) -> Decisions:
        """What a call decides, while the lock is held."""
        outcome = call(*arguments)
        if outcome:
            self._check(outcome)
        count = _decision_count(self._place)
        decided = (self._decision_at(0),) if count == 1 else tuple(map(self._decision_at, range(count)))
        self._tags.follow(decided)
        return decided

    def _decision_at(self, index: int) -> Decision:
        """A decision of the last call, which is read while the lock is held."""
        outcome = _read_decision(self._place, index, self._room_place)
        if outcome:
            self._check(outcome)
        return decision_of(self._room)

    def _received(self, call: Callable[..., int], client: int, tag: int, file_id: int, *more: int) -> Decisions:
        if are_longs(client, tag, file_id):
            return self._requested(call, client, tag, file_id, *more)
        names = number(client, LONG, "client"), number(tag, LONG, "tag"), number(file_id, LONG, "file_id")
        return self._requested(call, *names, *more)

    def join(self, client: int) -> None:
        """A client connects (3.3.5.1), which decides nothing.

        >>> Manager(Rules.of("by-key,whole")).join(1)
        """
        self._decided(library.smblease_manager_join, self._reference, number(client, LONG, "client"))

    def cut(self, client: int) -> Decisions:
        """A client's connection is lost (3.3.7.1). Each of its opens ends or waits for it. Nothing is decided of its requests
        and changes that wait.

        >>> Manager(Rules.of("by-key,whole")).cut(1)
        ()
        """
        with self._lock:
            decided = self._decisions(library.smblease_manager_cut, (self._reference, number(client, LONG, "client")))
            self._tags.forget(client)
        return decided

    def leave(self, client: int, file_ids: Sequence[int], tags: Sequence[int] = ()) -> Decisions:
        """A client leaves these of its opens, and what it asked for under these tags and waits: the connection or the session
        that had them goes, and the client stays (3.3.5.6). What isn't the client's is passed over. Where MemoryError is raised,
        nothing changed.

        >>> manager = Manager(Rules.of("by-key,whole"))
        >>> manager.join(1)
        >>> [opened] = manager.create(1, 10, 5, Access.READ, Share.READ)
        >>> manager.leave(1, [opened.file_id])
        (Ended(file_id=1),)
        """
        arguments = (self._reference, number(client, LONG, "client"), longs(file_ids, "file_id"), len(file_ids),
                     longs(tags, "tag"), len(tags))
        with self._lock:
            decided = self._decisions(library.smblease_manager_leave, arguments)
            self._tags.leave(client, tags)
        return decided

    def run_out(self, timer: int) -> Decisions:
        """The timer of a break runs out (3.3.6.5), by the number that it was told with. A timer need not be stopped: where its
        break has ended nothing is decided, even if the lease is breaking again.

        >>> Manager(Rules.of("by-key,whole")).run_out(1)
        ()
        """
        return self._decided(library.smblease_manager_run_out, self._reference, number(timer, LONG, "timer"))

    def expire(self, client: int, key: uuid.UUID) -> Decisions:
        """The break of a client's lease is ended, whatever its timer says, as by an administrator.

        >>> Manager(Rules.of("by-key,whole")).expire(1, uuid.UUID(int=1))
        ()
        """
        return self._decided(library.smblease_manager_expire, self._reference, number(client, LONG, "client"),
                             ctypes.byref(key_struct(key)))

    def scavenge(self, file_id: int) -> Decisions:
        """The timer of a durable open runs out (3.3.6.2).

        >>> Manager(Rules.of("by-key,whole")).scavenge(1)
        ()
        """
        return self._decided(library.smblease_manager_scavenge, self._reference, number(file_id, LONG, "file_id"))

    def create(self, client: int, tag: int, file: int, access: Access, share: Share, ask: CreateAsk = NO_ASK) -> Decisions:
        """A client asks to open a file (3.3.5.9), or to connect a durable open again where `ask.reconnect` names one.

        >>> manager = Manager(Rules.of("by-key,whole"))
        >>> manager.join(1)
        >>> manager.create(1, 10, 0, Access.READ, Share.READ)
        (Refused(client=1, tag=10, status=3221225524),)
        """
        names = (client, tag, file) if are_longs(client, tag, file) else (
            number(client, LONG, "client"), number(tag, LONG, "tag"), number(file, LONG, "file"))
        if not (isinstance(access, Access) and isinstance(share, Share)):
            access, share = Access(access), Share(share)
        asked = _NOTHING_ASKED if ask is NO_ASK else ask_struct(ask)
        # pylint: disable-next=protected-access  # (which is `value`, and sooner there)
        return self._requested(_create, *names, access._value_, share._value_, ctypes.addressof(asked))

    def read(self, client: int, tag: int, file_id: int) -> Decisions:
        """A client asks to read by an open (3.3.5.12).

        >>> Manager(Rules.of("by-key,whole")).read(1, 11, 1)
        ()
        """
        return self._received(_read, client, tag, file_id)

    def write(self, client: int, tag: int, file_id: int, fits: bool = True) -> Decisions:
        """A client asks to write by an open (3.3.5.13). `fits`: it ends within what the host allows of a file.

        >>> Manager(Rules.of("by-key,whole")).write(1, 12, 1)
        ()
        """
        return self._received(_write, client, tag, file_id, bool(fits))

    def close_open(self, client: int, tag: int, file_id: int) -> Decisions:
        """A client asks to close an open (3.3.5.10).

        >>> Manager(Rules.of("by-key,whole")).close_open(1, 13, 1)
        ()
        """
        return self._received(_close, client, tag, file_id)

    def acknowledge(self, client: int, given: Acknowledgment) -> Decisions:
        """A client acknowledges the break of a lease (3.3.5.22.2).

        >>> Manager(Rules.of("by-key,whole")).acknowledge(1, Acknowledgment(uuid.UUID(int=1), LeaseState.R))
        ()
        """
        struct = structs.Acknowledgment(key_field(given.key), LeaseState(given.state).value)
        return self._decided(library.smblease_manager_acknowledge, self._reference, number(client, LONG, "client"),
                             ctypes.byref(struct))

    def acknowledge_malformed(self, client: int) -> Decisions:
        """A client sends an acknowledgment that can't be read.

        >>> manager = Manager(Rules.of("by-key,whole"))
        >>> manager.join(1)
        >>> manager.acknowledge_malformed(1)
        (NotAcknowledged(client=1, status=3221225485),)
        """
        return self._decided(library.smblease_manager_acknowledge_malformed, self._reference, number(client, LONG, "client"))

    def withdraw(self, client: int, tag: int, file: int) -> Decisions:
        """A request or a change that waits on the file is taken back (3.3.5.16).

        >>> Manager(Rules.of("by-key,whole")).withdraw(1, 10, 5)
        ()
        """
        return self._decided(library.smblease_manager_withdraw, self._reference, number(client, LONG, "client"),
                             number(tag, LONG, "tag"), number(file, LONG, "file"))

    def change(self, client: int, tag: int, key: Optional[uuid.UUID], file: int, extent: Extent) -> Decisions:
        """A change of the file that no open of a client asks for (own): a truncation, a lock, a rename, another program's write.
        Other keys than this one of the client's give up as much; with no key each does. The change goes on at once, or waits and
        goes on in the decisions of whichever call frees it. The client need not be connected: a host may use a number of its own.

        >>> manager = Manager(Rules.of("by-key,whole"))
        >>> manager.join(1)
        >>> ask = CreateAsk(uuid.UUID(int=1), LeaseState.of("RWH"))
        >>> [opened] = manager.create(1, 10, 5, Access.READ, Share.READ, ask)
        >>> [breaks, waits] = manager.change(2, 20, None, 5, Extent.ALL)
        >>> manager.close_open(1, 11, opened.file_id)
        (Closed(client=1, tag=11), GoesOn(client=2, tag=20))
        """
        asked, wanted = maybe_key_struct(key), Extent(extent).value
        names = number(client, LONG, "client"), number(tag, LONG, "tag")
        return self._requested(_change, *names, ctypes.addressof(asked), number(file, LONG, "file"), wanted)

    def give_up(self, client: int, key: Optional[uuid.UUID], file: int, extent: Extent) -> Decisions:
        """Other keys on the file than this one of the client's give up as much; with no key each does (own). A host that keeps
        its changes itself asks `given_up` then; else there is `change`.

        >>> manager = Manager(Rules.of("by-key,whole"))
        >>> manager.join(1)
        >>> ask = CreateAsk(uuid.UUID(int=1), LeaseState.of("RWH"))
        >>> [opened] = manager.create(1, 10, 5, Access.READ, Share.READ, ask)
        >>> [breaks] = manager.give_up(2, None, 5, Extent.HANDLES)
        >>> str(breaks.notification.new), manager.given_up(2, None, 5, Extent.HANDLES)
        ('RW', False)
        """
        return self._decided(library.smblease_manager_give_up, self._reference, number(client, LONG, "client"),
                             ctypes.byref(maybe_key_struct(key)), number(file, LONG, "file"), Extent(extent).value)
