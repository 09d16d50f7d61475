"""LOCK (3.3.5.14): locks of bytes, which are the shell's."""
from __future__ import annotations

import struct

from smblease import Status
from smblease.drive.headers import HEADER
from smblease.serve.asks import Handling, Pause, Steps
from smblease.serve.opens import Lock, Open
from smblease.serve.packets import Answer, RequestMessage
from smblease.serve.request import Handlers, Request
from smblease.serve.status_error import StatusError

MOST_LOCKS = 1024
SHARED, EXCLUSIVE, UNLOCK, AT_ONCE = 1, 2, 4, 16


class Conflict(StatusError):
    """Another lock is in the way."""

    def __init__(self) -> None:
        super().__init__(Status.LOCK_NOT_GRANTED)


class Locking(Handlers):
    def lock(self, request: Request) -> Handling:
        """Who locks has all others cache nothing. A lock that isn't to be had is waited for, unless it is to be had at once."""
        message = request.message
        opened = request.open()
        count = message.number(HEADER + 2, 2)
        if not count or opened.node.is_folder:
            raise StatusError(Status.INVALID_PARAMETER)
        wanted = [_lock(message, HEADER + 24 + 24 * place) for place in range(count)]
        first = wanted[0][1]
        if first == UNLOCK:
            self._unlock(opened, wanted)
        elif any(flags & ~AT_ONCE not in (SHARED, EXCLUSIVE) or count > 1 and not flags & AT_ONCE for _, flags in wanted):
            # Only one that is alone is waited for.
            raise StatusError(Status.INVALID_PARAMETER)
        else:
            yield from self._take(request, opened, [it for it, _ in wanted], waits=not first & AT_ONCE)
        return Answer(Status.SUCCESS, struct.pack("<HH", 4, 0))

    def _unlock(self, opened: Open, wanted: list[tuple[Lock, int]]) -> None:
        """One after the other: what was given up before one that is refused stays so."""
        try:
            for lock, flags in wanted:
                found = next((it for it in opened.locks if (it.offset, it.length) == (lock.offset, lock.length)), None)
                if found is None or flags != UNLOCK:
                    raise StatusError(Status.INVALID_PARAMETER if flags != UNLOCK else Status.RANGE_NOT_LOCKED)
                opened.locks.remove(found)
        finally:
            if not opened.locks:
                opened.node.opens.with_locks.pop(opened, None)
            self._server.host.resume(opened.node.pauses)

    def _take(self, request: Request, opened: Open, wanted: list[Lock], waits: bool) -> Steps:
        self._server.leases.break_own_level_ii(opened)
        while True:
            try:
                yield from self._server.forced_breaks.break_all(request, opened, lambda: _take_locks(opened, wanted))
                return
            except Conflict:
                if not waits:
                    raise
            yield from self._pause(request, opened)

    def _pause(self, request: Request, opened: Open) -> Steps:
        """Until a lock of the file is given up, or an open of it. Who has closed it or was cut meanwhile gets none."""
        pause, pauses = Pause(), opened.node.pauses
        if len(pauses) >= MOST_LOCKS:
            raise StatusError(Status.INSUFFICIENT_RESOURCES)
        pauses.append(pause)
        try:
            yield pause
        finally:
            if pause in pauses:
                pauses.remove(pause)
        if opened.file_id not in self._server.opens or opened.connection is not request.connection:
            raise StatusError(Status.RANGE_NOT_LOCKED)


def _take_locks(opened: Open, wanted: list[Lock]) -> None:
    """All of them, or none. Its own exclusive lock keeps an open from no shared one."""
    if sum(len(it.locks) for it in opened.node.opens.with_locks) + len(wanted) > MOST_LOCKS:
        raise StatusError(Status.INSUFFICIENT_RESOURCES)
    locks = [*opened.locks]
    for lock in wanted:
        if any(it.meets(lock.offset, lock.length) and (it.is_exclusive or lock.is_exclusive) for it in locks_of_others(opened)):
            raise Conflict
        if lock.is_exclusive and any(it.meets(lock.offset, lock.length) for it in locks):
            raise Conflict
        locks.append(lock)
    opened.locks = locks
    opened.node.opens.with_locks[opened] = None


def _lock(message: RequestMessage, place: int) -> tuple[Lock, int]:
    offset, length, flags = message.number(place, 8), message.number(place + 8, 8), message.number(place + 16, 4)
    if offset + length > 1 << 64:
        raise StatusError(Status.INVALID_LOCK_RANGE)
    return Lock(offset, length, bool(flags & EXCLUSIVE)), flags


def locks_of_others(opened: Open) -> list[Lock]:
    return [lock for it in opened.node.opens.with_locks if it is not opened for lock in it.locks]


def is_kept_from(opened: Open, offset: int, length: int, is_write: bool) -> bool:
    """Whether a lock keeps an open from these bytes (MS-FSA 2.1.4.10): for a write its own shared one does too. None keeps
    anybody from no bytes."""
    if not length or not opened.node.opens.with_locks:
        return False
    shared = [it for it in opened.locks if is_write and not it.is_exclusive]
    others = [it for it in locks_of_others(opened) if is_write or it.is_exclusive]
    return any(it.meets(offset, length) for it in shared + others)
