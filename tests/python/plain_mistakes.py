"""Mistakes in a manager of leases, each made by a plain one."""
from __future__ import annotations

import uuid
from typing import Iterable, Optional, Sequence, Union

from smblease import Acknowledgment, Change, CreateAsk, Extent, Rules, Status
from smblease.manager_decisions import Breaks, Decision, Decisions, Ended
from tests.python.plain_manager import PlainManager
from tests.python.plain_rules import (ALL, STATES, Create, H, Held, Key, Lease, Open, Read, Request, W, Want, Write, granted_form,
                                      is_shared)
from tests.python.plain_tables import LAST, Decided, Listed

# ---- states


class GrantsWritesToMany(PlainManager):
    def _allowed(self, own: Optional[Key], file: int, want: int) -> int:
        return granted_form(want)


class GrantsHandlesWithoutReads(PlainManager):
    def _allowed(self, own: Optional[Key], file: int, want: int) -> int:
        return super()._allowed(own, file, want) or want & H


class GrantsExpiredKeys(PlainManager):
    def _offered(self, key: Key, file: int, want: int) -> int:
        return self._allowed(key, file, want)


class KeepsKeysExpired(PlainManager):
    """A client that joins stays without leases."""

    def _forget_expired(self, client: int) -> None:
        pass


class RisesInPart(PlainManager):
    """Though leases rise to all that is wanted or not at all."""

    def _may_rise(self, key: Key, want: int, offered: int) -> bool:
        return True


class AcceptsMore(PlainManager):
    """An acknowledgment of more than the state broken to is taken for one of that."""

    def _acknowledged(self, client: int, given: Acknowledgment) -> Decision:
        broken_to = self._lease((client, given.key)).broken_to
        state = given.state.value & (ALL if broken_to is None else broken_to)
        return super()._acknowledged(client, Acknowledgment(given.key, STATES[state]))


# ---- breaks


class BreaksNothingForWrites(PlainManager):
    def _look_at_write(self, request: Write, one: Open) -> Union[Status, list[Want]]:
        found = super()._look_at_write(request, one)
        return found if isinstance(found, Status) else []


class SparesTheSameLeaseKey(PlainManager):
    """The LeaseKey alone names a lease, whoever its client is."""

    def _is_other(self, own: Optional[Key], one: Open) -> bool:
        return one.lease_key is None or own is None or one.lease_key != own[1]


class BreaksInOrderOfOpens(PlainManager):
    def _in_order(self, keys: list[Key]) -> list[Key]:
        return [it for it in dict.fromkeys(one.key for one in self._opens.values()) if it is not None and it in keys]


class BreaksInOrderOfLeaseKeys(PlainManager):
    def _in_order(self, keys: list[Key]) -> list[Key]:
        return sorted(keys, key=lambda it: (it[1].bytes, it[0]))


class BreaksBeforeEnds(PlainManager):
    """The opens that end by a try are decided after its breaks."""

    def _in_effect(self, ended: list[Ended], breaks: list[Breaks]) -> Decided:
        return [*breaks, *sorted(ended, key=lambda it: it.file_id)]


class BreaksAgain(PlainManager):
    """A request that is tried again breaks what is breaking."""

    def _is_to_be_broken(self, lease: Lease) -> bool:
        return True


class GivesUpTwice(PlainManager):
    def give_up(self, client: int, key: Optional[uuid.UUID], file: int, extent: Extent) -> Decisions:
        for want in self._wants_of_extent(None if key is None else (client, key), file, extent):
            self._leases[want.key].broken_to = None
        return super().give_up(client, key, file, extent)


class GivesUpItsOwn(PlainManager):
    """The key that a change comes by is broken too."""

    def _wants_of_extent(self, own: Optional[Key], file: int, extent: Extent) -> list[Want]:
        return super()._wants_of_extent(None, file, extent)


class KeepsOldTimers(PlainManager):
    """The timer of a break that was acknowledged ends a later one."""

    def __init__(self, rules: Rules = Rules(), files: int = LAST) -> None:
        super().__init__(rules, files)
        self._names: dict[int, Key] = {}

    def _broken(self, want: Want, lease: Lease) -> Breaks:
        broken = super()._broken(want, lease)
        if broken.timer is not None:
            self._names[broken.timer] = want.key
        return broken

    def run_out(self, timer: int) -> Decisions:
        return self.expire(*self._names[timer]) if timer in self._names else ()


# ---- opens


class ConflictsOneWay(PlainManager):
    """What an open lets others do is looked at, but not what the create lets it do."""

    def _conflicts(self, request: Create, one: Open) -> bool:
        return not is_shared(request.access, one.share)


class DurableWithoutHandles(PlainManager):
    def _is_durable(self, ask: CreateAsk, lease: Lease) -> bool:
        return ask.durable and ask.key is not None


class KeepsOpensWhileBreaking(PlainManager):
    """A durable open outlives its connection while its lease is breaking."""

    def _outlives_connection(self, one: Open) -> bool:
        return one.durable and bool(self._lease(one.key).state & H)


class KeepsDisconnectedOpens(PlainManager):
    """Opens that wait for their client don't end where their key is wanted."""

    def _opens_that_go(self, key: Key) -> list[Open]:
        return []


class ReconnectsOtherClients(PlainManager):
    def _awaits(self, request: Create, one: Open) -> bool:
        return not one.connected and one.file == request.file and one.lease_key == request.ask.key


class ReconnectsConnectedOpens(PlainManager):
    def _awaits(self, request: Create, one: Open) -> bool:
        return one.file == request.file and one.key is not None and one.key == request.key


class FindsTheNewest(PlainManager):
    """Of a client's opens that wait for it."""

    def kept(self, client: int, file: int) -> Optional[int]:
        found = [one.file_id for one in self._opens_on(file) if one.client == client and not one.connected]
        return found[-1] if found else None


# ---- turns


class WaitsForNone(PlainManager):
    """Each request is tried, whichever came before it."""

    def _has_turn(self, one: Held, earlier: Iterable[Held]) -> bool:
        return True


class WaitsForOtherClients(PlainManager):
    """Of requests under one LeaseKey the later one waits for the earlier, whoever its client is."""

    def _is_after(self, one: Held, earlier: Held) -> bool:
        return super()._is_after(one, earlier) or one.lane is not None and one.lane == earlier.lane


class NamesKeysAnew(PlainManager):
    """What waits stands under the key that its open has now, and not under that which it had when it came."""

    def _is_after(self, one: Held, earlier: Held) -> bool:
        later, sooner = (Held(it.request, self._lane(it.request)) for it in (one, earlier))
        return super()._is_after(later, sooner)


class CreatesGoOn(PlainManager):
    """Also a create goes on during breaks to none."""

    def _is_ready(self, request: Request, wants: list[Want]) -> bool:
        return all(self._lease(want.key).broken_to == 0 for want in wants)

    def _waits_for(self, request: Request, lease: Lease) -> bool:
        return bool(lease.broken_to)


class LeaveForgetsAll(PlainManager):
    """All that a client asked and waits, under whichever tag."""

    def _is_left(self, request: Union[Request, Change], client: int, tags: Sequence[int]) -> bool:
        return request.client == client


class PassesOnce(PlainManager):
    """What waits is tried once, though what was answered may have freed more."""

    def _passes(self, file: int, decided: Decided) -> bool:
        super()._passes(file, decided)
        return False


class PassesByAge(PlainManager):
    """Files have their turn in the order in which requests began to wait there."""

    def _after(self, decided: Decided) -> Decisions:
        for file in list(self._queues):
            while self._passes(file, decided):
                pass
        return tuple(decided)


class PassesOverMalformed(PlainManager):
    """After an acknowledgment that can't be read what waits isn't tried again."""

    def acknowledge_malformed(self, client: int) -> Decisions:
        waiting, self._queues = self._queues, {}
        decided = super().acknowledge_malformed(client)
        self._queues = waiting
        return decided


class AnswersOutOfTurn(PlainManager):
    """A write is said to be done at once though it would wait for another request."""

    def _goes_at_once(self, request: Union[Read, Write]) -> bool:
        found = self._look(request)
        return not isinstance(found, Status) and self._is_ready(request, found)


class OverlooksCachedWrites(PlainManager):
    """A lease that caches writes is in nobody's way while it is broken to nothing."""

    def _is_in_the_way(self, extent: Extent, lease: Lease) -> bool:
        return super()._is_in_the_way(extent, Lease(lease.state & ~W, lease.broken_to))


# ---- changes


class ChangesAtOnce(PlainManager):
    """A change goes on though a lease is in its way."""

    def _is_free(self, one: Change) -> bool:
        return True


class ChangesWaitForEver(PlainManager):
    """A change that waits is never tried again."""

    def _try_changes(self, file: int, decided: Decided) -> None:
        pass


class ChangesSpareNoKey(PlainManager):
    """The key that a change comes by gives up too."""

    def _asked_for(self, one: Change) -> Decided:
        return super()._asked_for(one._replace(key=None))

    def _is_free(self, one: Change) -> bool:
        return super()._is_free(one._replace(key=None))


class ChangesOverlookNewLeases(PlainManager):
    """What waits goes on once it is free, but leases that came since aren't broken for it."""

    def _asks_again(self, one: Change) -> Decided:
        return []


# ---- restarts


class GivesFileIdsAgain(PlainManager):
    """After a restart, those that were given after the last open that is left."""

    def restart(self) -> Listed:
        left = super().restart()
        self._last_id = max(self._opens, default=0)
        return left


class StaysExpired(PlainManager):
    """What ran out before a restart has run out after it."""

    def restart(self) -> Listed:
        expired = self._expired
        left = super().restart()
        self._expired = expired
        return left

    def _forget_expired(self, client: int) -> None:
        """(which a client would do that joins)"""


class KeepsWhatIsBroken(PlainManager):
    """Over a restart, opens whose lease is breaking, with the lease as it was."""

    def restart(self) -> Listed:
        self._leases = {key: Lease(lease.state) for key, lease in self._leases.items()}
        return super().restart()


MISTAKES: tuple[type[PlainManager], ...] = tuple(it for it in PlainManager.__subclasses__() if it.__module__ == __name__)
