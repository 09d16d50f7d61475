"""A manager of leases as an object: a break and its ends, opens that stay, and the example of a file server."""
from __future__ import annotations

import hashlib
import threading
import uuid
from collections import Counter
from collections.abc import Callable
from pathlib import Path

import pytest

from smblease import (Access, Acknowledgment, Change, CreateAnswer, CreateAsk, Extent, HeldLease, KeptFault, LeaseState,
                      ListedLease, ListedOpen, ListedRequest, Manager, Notification, Response, Rules, Share, Status, WaitingKind)
from smblease.manager_decisions import (Acknowledged, Breaks, Closed, Decisions, Ended, GoesOn, LeftBehind, NotAcknowledged,
                                        Opened, Refused, Waits, Withdrawn)
from tests.paths import TESTS, TOP, files_of
from tests.python.refusing import LOST, Ended as Finished, refusals, run

ONE, TWO, FILE = (1 << 63) + 1, 2, (1 << 64) - 1
# A number of a host's own, which never joins.
HOST = 7
KEY, OTHER_KEY = uuid.UUID(int=1), uuid.UUID(int=2)
RWH, RH, R, NONE = map(LeaseState.of, ("RWH", "RH", "R", "none"))
EXAMPLE = TOP / "examples/python/play_file_server.py"
SCRIPTS = [pytest.param(it, id=it.stem) for it in files_of(TOP / "examples/c/file_server")]


def opened(client: int, tag: int, key: uuid.UUID, state: LeaseState, manager: Manager, **more: bool) -> Decisions:
    return manager.create(client, tag, FILE, Access.READ_WRITE, Share.READ_WRITE, CreateAsk(key, state, **more))


@pytest.fixture(name="manager")
def joined_manager() -> Manager:
    manager = Manager(Rules())
    for client in (ONE, TWO):
        manager.join(client)
    return manager


def test_a_break_is_acknowledged(manager: Manager) -> None:
    assert opened(ONE, 10, KEY, RWH, manager) == (Opened(ONE, 10, 1, CreateAnswer(KEY, RWH)),)
    assert opened(TWO, 20, OTHER_KEY, RWH, manager) == (Breaks(ONE, Notification(KEY, RWH, RH, True), 1), Waits(TWO, 20))
    assert manager.breaking(ONE, KEY) and manager.waiting(TWO, 20, FILE) and not manager.waiting(TWO, 21, FILE)
    assert manager.lease(ONE, KEY) == HeldLease(RWH, RH)
    assert manager.write(ONE, 11, 1) == (GoesOn(ONE, 11),)
    assert manager.acknowledge_malformed(ONE) == (NotAcknowledged(ONE, Status.INVALID_PARAMETER),)
    assert manager.acknowledge(ONE, Acknowledgment(KEY, RH)) == (Acknowledged(ONE, Response(KEY, RH)),
                                                                 Opened(TWO, 20, 2, CreateAnswer(OTHER_KEY, RH)))
    assert manager.acknowledge(ONE, Acknowledgment(KEY, RH)) == (NotAcknowledged(ONE, Status.UNSUCCESSFUL),)
    assert manager.close_open(ONE, 12, 1) == (Closed(ONE, 12),)


def test_a_break_expires(manager: Manager) -> None:
    opened(ONE, 10, KEY, RWH, manager)
    opened(TWO, 20, OTHER_KEY, R, manager)
    assert manager.expire(TWO, KEY) == ()
    assert manager.expire(ONE, KEY) == (Ended(1), Opened(TWO, 20, 2, CreateAnswer(OTHER_KEY, R)))
    assert manager.read(ONE, 11, 1) == (Refused(ONE, 11, Status.FILE_CLOSED),)


def test_a_timer_is_of_one_break(manager: Manager) -> None:
    """That of a break which was acknowledged ends no later break of the lease."""
    opened(ONE, 10, KEY, RWH, manager)
    opened(TWO, 20, OTHER_KEY, R, manager)
    manager.acknowledge(ONE, Acknowledgment(KEY, RH))
    wanted = Breaks(ONE, Notification(KEY, RH, NONE, True), 2), GoesOn(TWO, 21)
    assert manager.write(TWO, 21, 2) == wanted
    assert manager.run_out(1) == () and manager.breaking(ONE, KEY)
    assert manager.run_out(2) == (Ended(1),)
    assert manager.run_out(2) == ()


def test_a_break_of_reads_has_no_timer(manager: Manager) -> None:
    opened(ONE, 10, KEY, R, manager)
    opened(TWO, 20, OTHER_KEY, R, manager)
    assert manager.write(TWO, 21, 2) == (Breaks(ONE, Notification(KEY, R, NONE, False)), GoesOn(TWO, 21))


def test_a_request_is_withdrawn(manager: Manager) -> None:
    opened(ONE, 10, KEY, RWH, manager)
    opened(TWO, 20, OTHER_KEY, R, manager)
    assert manager.withdraw(TWO, 21, FILE) == ()
    assert manager.withdraw(TWO, 20, FILE) == (Withdrawn(TWO, 20),)
    assert manager.acknowledge(ONE, Acknowledgment(KEY, NONE)) == (Acknowledged(ONE, Response(KEY, NONE)),)


def test_a_tag_is_of_one_request_that_waits(manager: Manager) -> None:
    """Whoever has it, and until the request is answered, taken back, or forgotten."""
    opened(ONE, 10, KEY, RWH, manager)
    assert opened(TWO, 20, OTHER_KEY, R, manager)[-1] == Waits(TWO, 20)
    for client in (ONE, TWO):
        with pytest.raises(ValueError, match=f"^a request or a change of client {TWO} waits under tag 20$"):
            manager.read(client, 20, 1)
        with pytest.raises(ValueError, match="waits under tag 20$"):
            manager.change(client, 20, None, FILE, Extent.ALL)
    assert manager.requests()[0].client == TWO and manager.read(ONE, 10, 1) == (GoesOn(ONE, 10),)
    manager.withdraw(TWO, 20, FILE)
    assert opened(TWO, 20, OTHER_KEY, R, manager) == (Waits(TWO, 20),)
    manager.leave(ONE, (), [20])
    with pytest.raises(ValueError):
        manager.close_open(TWO, 20, 1)
    manager.leave(TWO, (), [20, 21])
    assert opened(TWO, 20, OTHER_KEY, R, manager) == (Waits(TWO, 20),)
    manager.cut(TWO)
    assert manager.write(ONE, 20, 1) == (GoesOn(ONE, 20),)
    manager.join(TWO)
    opened(TWO, 20, OTHER_KEY, R, manager)
    assert manager.acknowledge(ONE, Acknowledgment(KEY, RH))[-1] == Opened(TWO, 20, 2, CreateAnswer(OTHER_KEY, R))
    assert manager.read(TWO, 20, 2) == (GoesOn(TWO, 20),)


def test_opens_stay(manager: Manager) -> None:
    assert opened(ONE, 10, KEY, RWH, manager, durable=True) == (Opened(ONE, 10, 1, CreateAnswer(KEY, RWH, durable=True)),)
    assert manager.cut(ONE) == (LeftBehind(1),)
    assert manager.left_behind(1) and manager.has_open(1) and manager.kept(ONE, FILE) == 1 and not manager.connected(ONE)
    left = ListedOpen(1, ONE, FILE, KEY, Access.READ_WRITE, Share.READ_WRITE, durable=True, connected=False)
    assert manager.opens() == (left,) and manager.open_count() == 1
    manager.join(ONE)
    again = manager.create(ONE, 11, FILE, Access.READ, Share.READ, CreateAsk(KEY, reconnect=1))
    assert again == (Opened(ONE, 11, 1, CreateAnswer(KEY, RWH)),)
    manager.cut(ONE)
    assert manager.scavenge(1) == (Ended(1),)


def test_a_restart(manager: Manager) -> None:
    """Of what is durable all is left; the lease of the open that isn't goes with it. FileIds go on after the last one."""
    opened(ONE, 10, KEY, RWH, manager, durable=True)
    opened(TWO, 20, OTHER_KEY, R, manager)
    manager.acknowledge(ONE, Acknowledgment(KEY, RH))
    kept = manager.export()
    assert (kept[:8], len(kept)) == (b"SMBKEPT1", 104) and manager.open_count() == 2
    with Manager(Rules(), kept=kept) as again:
        left = ListedOpen(1, ONE, FILE, KEY, Access.READ_WRITE, Share.READ_WRITE, durable=True, connected=False)
        assert again.opens() == (left,) and again.leases() == (ListedLease(ONE, KEY, FILE, RH, None, 1),)
        assert not again.connected(ONE) and again.left_behind(1) and again.export() == kept
        for client in (ONE, TWO):
            again.join(client)
        assert again.create(ONE, 11, FILE, Access.READ, Share.READ, CreateAsk(KEY, reconnect=1)) == (
            Opened(ONE, 11, 1, CreateAnswer(KEY, RH)),)
        assert again.create(TWO, 21, FILE, Access.READ, Share.READ_WRITE) == (Opened(TWO, 21, 3, CreateAnswer()),)


def test_what_is_kept_is_refused_where_it_is_damaged(manager: Manager) -> None:
    opened(ONE, 10, KEY, RWH, manager, durable=True)
    kept = manager.export()
    for place, byte in enumerate(kept):
        with pytest.raises(KeptFault, match="damaged"):
            Manager(Rules(), kept=kept[:place] + bytes([byte ^ 1 << place % 8]) + kept[place + 1:])
        with pytest.raises(KeptFault, match="damaged"):
            Manager(Rules(), kept=kept[:place])
    for other in (kept + b"\0", kept * 2):
        with pytest.raises(KeptFault, match="damaged"):
            Manager(Rules(), kept=other)


def sealed(*opens: bytes, last: int) -> bytes:
    text = b"SMBKEPT1" + last.to_bytes(8, "little") + len(opens).to_bytes(8, "little") + b"".join(opens)
    return text + hashlib.sha256(text).digest()


def kept_open(file_id: int, client: int, file: int, key: uuid.UUID, share: int = 3, state: int = 3) -> bytes:
    numbers = b"".join(it.to_bytes(8, "little") for it in (file_id, client, file))
    return numbers + key.bytes_le + bytes((3, share, state, *5 * (0,)))


@pytest.mark.parametrize("opens", [
    pytest.param([kept_open(1, ONE, 5, KEY, share=1), kept_open(2, TWO, 5, OTHER_KEY)], id="conflict"),
    pytest.param([kept_open(1, ONE, 5, KEY), kept_open(2, ONE, 6, KEY)], id="two_files"),
    pytest.param([kept_open(1, ONE, 5, KEY), kept_open(2, ONE, 5, KEY, state=7)], id="two_states"),
    pytest.param([kept_open(1, ONE, 5, KEY, state=7), kept_open(2, TWO, 5, OTHER_KEY)], id="not_the_only_writer"),
    pytest.param([kept_open(1, ONE, 5, KEY, state=1)], id="no_handle"),
    pytest.param([kept_open(1, ONE, 5, KEY, state=2)], id="no_granted_form"),
    pytest.param([kept_open(1, ONE, 0, KEY)], id="no_file"),
    pytest.param([kept_open(1, ONE, 8, KEY)], id="past_the_files"),
    pytest.param([kept_open(0, ONE, 5, KEY)], id="no_file_id"),
    pytest.param([kept_open(4, ONE, 5, KEY)], id="past_the_file_ids"),
    pytest.param([kept_open(2, ONE, 5, KEY), kept_open(1, ONE, 5, KEY)], id="in_no_order"),
    pytest.param([kept_open(1, ONE, 5, KEY), kept_open(1, ONE, 5, KEY)], id="twice")])
def test_what_is_kept_is_refused_where_it_breaks_a_law(opens: list[bytes]) -> None:
    with pytest.raises(KeptFault, match="law"):
        Manager(Rules(), files=7, kept=sealed(*opens, last=3))


def test_what_is_kept_by_hand() -> None:
    opens = [kept_open(1, ONE, 5, KEY), kept_open(2, TWO, 5, OTHER_KEY), kept_open(3, ONE, 6, OTHER_KEY, share=0, state=7)]
    with Manager(Rules(), files=7, kept=sealed(*opens, last=3)) as manager:
        assert [it.file_id for it in manager.opens()] == [1, 2, 3] and manager.export() == sealed(*opens, last=3)


def test_leases_and_requests_are_listed(manager: Manager) -> None:
    opened(ONE, 10, KEY, RWH, manager)
    opened(ONE, 11, KEY, R, manager)
    manager.create(TWO, 20, 5, Access.READ, Share.READ_WRITE, CreateAsk(KEY, RWH))
    assert manager.requests() == ()
    ask = CreateAsk(OTHER_KEY, RH, durable=True, reconnect=9)
    manager.create(ONE, 12, 5, Access.READ, Share.READ)
    manager.create(ONE, 13, 5, Access.WRITE, Share.READ_WRITE, ask)
    assert manager.leases() == (ListedLease(TWO, KEY, 5, RWH, RH, 1), ListedLease(ONE, KEY, FILE, RWH, None, 2))
    assert manager.requests() == (
        ListedRequest(5, ONE, 12, WaitingKind.CREATE, access=Access.READ, share=Share.READ, ask=CreateAsk()),
        ListedRequest(5, ONE, 13, WaitingKind.CREATE, access=Access.WRITE, share=Share.READ_WRITE, ask=ask))


def test_a_client_leaves_a_part(manager: Manager) -> None:
    """One of its sessions goes, with an open that ends, one that stays, and a create that waits on another client's."""
    opened(ONE, 10, KEY, RWH, manager, durable=True)
    manager.create(ONE, 11, 5, Access.READ, Share.READ)
    manager.create(TWO, 20, 6, Access.READ, Share.READ, CreateAsk(KEY, RWH))
    broken = Breaks(TWO, Notification(KEY, RWH, RH, True), 1)
    assert manager.create(ONE, 12, 6, Access.READ, Share.READ) == (broken, Waits(ONE, 12))
    assert manager.leave(TWO, [1, 2], [12]) == () and manager.waiting(ONE, 12, 6)
    assert manager.leave(ONE, [2, 1, 3, 4], [12, 99]) == (Ended(2), LeftBehind(1))
    assert manager.connected(ONE) and not manager.waiting(ONE, 12, 6)
    assert manager.acknowledge(TWO, Acknowledgment(KEY, RH)) == (Acknowledged(TWO, Response(KEY, RH)),)
    assert manager.leave(ONE, []) == () and manager.leave(3, [3], [1]) == ()
    with pytest.raises(ValueError):
        manager.leave(ONE, [1 << 64])


def test_what_a_leaving_client_had_is_free(manager: Manager) -> None:
    opened(ONE, 10, KEY, RWH, manager)
    opened(TWO, 20, OTHER_KEY, R, manager)
    assert manager.leave(ONE, [1]) == (Ended(1), Opened(TWO, 20, 2, CreateAnswer(OTHER_KEY, R)))


def test_others_give_up_all(manager: Manager) -> None:
    """Once, straight to nothing, and not the key that the change comes by."""
    opened(ONE, 10, KEY, RWH, manager)
    assert manager.given_up(ONE, KEY, FILE, Extent.ALL) and manager.give_up(ONE, KEY, FILE, Extent.ALL) == ()
    assert not manager.given_up(TWO, KEY, FILE, Extent.ALL)
    assert manager.give_up(TWO, KEY, FILE, Extent.ALL) == (Breaks(ONE, Notification(KEY, RWH, NONE, True), 1),)
    assert manager.give_up(TWO, None, FILE, Extent.ALL) == () and not manager.given_up(TWO, None, FILE, Extent.ALL)
    manager.acknowledge(ONE, Acknowledgment(KEY, NONE))
    assert manager.given_up(TWO, None, FILE, Extent.ALL)


def test_others_give_up_handles(manager: Manager) -> None:
    opened(ONE, 10, KEY, RH, manager, durable=True)
    opened(TWO, 20, OTHER_KEY, RH, manager)
    assert manager.cut(ONE) == (LeftBehind(1),)
    assert not manager.given_up(TWO, OTHER_KEY, FILE, Extent.HANDLES) and manager.given_up(TWO, OTHER_KEY, 5, Extent.HANDLES)
    assert manager.give_up(TWO, OTHER_KEY, FILE, Extent.HANDLES) == (Ended(1),)
    assert manager.given_up(TWO, OTHER_KEY, FILE, Extent.HANDLES)
    assert manager.give_up(ONE, None, FILE, Extent.HANDLES) == (Breaks(TWO, Notification(OTHER_KEY, RH, R, True), 1),)


def test_a_change_goes_on_at_once(manager: Manager) -> None:
    opened(ONE, 10, KEY, RWH, manager)
    assert manager.change(ONE, 11, KEY, FILE, Extent.ALL) == (GoesOn(ONE, 11),)
    assert manager.change(HOST, 70, None, 5, Extent.ALL) == (GoesOn(HOST, 70),)
    manager.create(TWO, 20, 5, Access.READ, Share.READ, CreateAsk(KEY, R))
    broken = Breaks(TWO, Notification(KEY, R, NONE, False))
    assert manager.change(HOST, 70, None, 5, Extent.ALL) == (broken, GoesOn(HOST, 70)) and manager.changes() == ()


def changed(manager: Manager) -> None:
    """A change waits for the lease of open 1."""
    opened(ONE, 10, KEY, RWH, manager)
    broken = Breaks(ONE, Notification(KEY, RWH, NONE, True), 1)
    assert manager.change(HOST, 70, None, FILE, Extent.ALL) == (broken, Waits(HOST, 70))
    assert manager.changes() == (Change(FILE, HOST, 70, None, Extent.ALL),) and manager.requests() == ()
    assert manager.waiting(HOST, 70, FILE) and not manager.waiting(HOST, 70, 5) and not manager.waiting(ONE, 70, FILE)


@pytest.mark.parametrize("end, first", [
    pytest.param(lambda manager: manager.acknowledge(ONE, Acknowledgment(KEY, NONE)), Acknowledged(ONE, Response(KEY, NONE)),
                 id="acknowledged"),
    pytest.param(lambda manager: manager.close_open(ONE, 11, 1), Closed(ONE, 11), id="closed"),
    pytest.param(lambda manager: manager.cut(ONE), Ended(1), id="cut"),
    pytest.param(lambda manager: manager.leave(ONE, [1]), Ended(1), id="left"),
    pytest.param(lambda manager: manager.run_out(1), Ended(1), id="ran_out"),
    pytest.param(lambda manager: manager.expire(ONE, KEY), Ended(1), id="expired")])
def test_a_change_that_waited_goes_on(manager: Manager, end: Callable[[Manager], Decisions], first: object) -> None:
    changed(manager)
    assert end(manager) == (first, GoesOn(HOST, 70)) and manager.changes() == ()
    assert manager.change(HOST, 70, None, FILE, Extent.ALL) == (GoesOn(HOST, 70),)


def test_a_change_spares_its_key(manager: Manager) -> None:
    opened(ONE, 10, KEY, RH, manager)
    opened(TWO, 20, OTHER_KEY, RH, manager)
    broken = Breaks(TWO, Notification(OTHER_KEY, RH, R, True), 1)
    assert manager.change(ONE, 11, KEY, FILE, Extent.HANDLES) == (broken, Waits(ONE, 11))
    assert manager.changes() == (Change(FILE, ONE, 11, KEY, Extent.HANDLES),)
    assert manager.acknowledge(TWO, Acknowledgment(OTHER_KEY, R)) == (Acknowledged(TWO, Response(OTHER_KEY, R)), GoesOn(ONE, 11))
    assert manager.lease(ONE, KEY) == HeldLease(RH)


def test_a_change_is_withdrawn(manager: Manager) -> None:
    changed(manager)
    assert manager.withdraw(HOST, 70, 5) == () and manager.withdraw(ONE, 70, FILE) == ()
    assert manager.withdraw(HOST, 70, FILE) == (Withdrawn(HOST, 70),) and manager.changes() == ()
    assert manager.read(ONE, 70, 1) == (GoesOn(ONE, 70),) and manager.withdraw(HOST, 70, FILE) == ()
    assert manager.acknowledge(ONE, Acknowledgment(KEY, NONE)) == (Acknowledged(ONE, Response(KEY, NONE)),)


@pytest.mark.parametrize("end", [pytest.param(lambda manager: manager.cut(HOST), id="cut"),
                                 pytest.param(lambda manager: manager.leave(HOST, [], [70]), id="left")])
def test_a_change_goes_with_its_client(manager: Manager, end: Callable[[Manager], Decisions]) -> None:
    """Whether it is connected or not."""
    changed(manager)
    manager.change(TWO, 20, OTHER_KEY, FILE, Extent.ALL)
    manager.change(HOST, 71, None, 5, Extent.ALL)
    assert manager.leave(ONE, [], [20, 70]) == manager.leave(TWO, [], [70]) == manager.cut(3) == ()
    assert end(manager) == () and manager.changes() == (Change(FILE, TWO, 20, OTHER_KEY, Extent.ALL),)
    assert manager.cut(TWO) == () and manager.changes() == ()
    assert manager.read(ONE, 70, 1) == (GoesOn(ONE, 70),) and manager.read(ONE, 20, 1) == (GoesOn(ONE, 20),)
    assert manager.acknowledge(ONE, Acknowledgment(KEY, NONE)) == (Acknowledged(ONE, Response(KEY, NONE)),)


def test_a_lease_that_came_since_is_broken_too(manager: Manager) -> None:
    opened(ONE, 10, KEY, RH, manager)
    broken = Breaks(ONE, Notification(KEY, RH, R, True), 1)
    assert manager.change(HOST, 70, None, FILE, Extent.HANDLES) == (broken, Waits(HOST, 70))
    assert opened(TWO, 20, OTHER_KEY, RH, manager) == (Opened(TWO, 20, 2, CreateAnswer(OTHER_KEY, RH)),)
    broken = Breaks(TWO, Notification(OTHER_KEY, RH, R, True), 2)
    assert manager.acknowledge(ONE, Acknowledgment(KEY, R)) == (Acknowledged(ONE, Response(KEY, R)), broken)
    assert manager.acknowledge(TWO, Acknowledgment(OTHER_KEY, R))[1:] == (GoesOn(HOST, 70),)


def test_changes_of_one_file_go_on_together(manager: Manager) -> None:
    """What one of them breaks is told before any goes on; each goes in order of arrival."""
    opened(ONE, 10, KEY, RH, manager)
    assert manager.change(HOST, 71, None, FILE, Extent.HANDLES)[1:] == (Waits(HOST, 71),)
    assert manager.change(TWO, 70, None, FILE, Extent.ALL) == (Waits(TWO, 70),)
    broken = Breaks(ONE, Notification(KEY, R, NONE, False))
    assert manager.acknowledge(ONE, Acknowledgment(KEY, R)) == (
        Acknowledged(ONE, Response(KEY, R)), broken, GoesOn(HOST, 71), GoesOn(TWO, 70))


def test_no_change_is_kept_over_a_restart(manager: Manager) -> None:
    changed(manager)
    with Manager(Rules(), kept=manager.export()) as again:
        assert not again.changes()


def test_what_may_be_done_at_once(manager: Manager) -> None:
    manager.create(ONE, 10, FILE, Access.READ_WRITE, Share.READ_WRITE)
    assert manager.may_read(ONE, 1) and manager.may_write(ONE, 1)
    assert not manager.may_read(TWO, 1) and not manager.may_write(ONE, 2)
    manager.create(TWO, 20, FILE, Access.READ, Share.READ_WRITE, CreateAsk(KEY, R))
    assert manager.may_read(TWO, 2) and not manager.may_write(TWO, 2) and not manager.may_write(ONE, 1)


def test_what_is_refused(manager: Manager) -> None:
    first = manager.create(ONE, 10, FILE, Access.READ, Share.READ)
    assert first == (Opened(ONE, 10, 1, CreateAnswer()),)
    assert manager.create(TWO, 20, FILE, Access.WRITE, Share.READ) == (Refused(TWO, 20, Status.SHARING_VIOLATION),)
    assert manager.write(ONE, 11, 1) == (Refused(ONE, 11, Status.ACCESS_DENIED),)
    second = manager.create(TWO, 21, 1, Access.WRITE, Share.READ)
    assert second == (Opened(TWO, 21, 2, CreateAnswer()),)
    assert manager.write(TWO, 22, 2, fits=False) == (Refused(TWO, 22, Status.INVALID_PARAMETER),)
    assert manager.allowed(TWO, OTHER_KEY, FILE, RWH) == RH
    assert [it.key for it in manager.opens()] == [None, None]


def test_rules_and_files() -> None:
    with Manager(Rules.of("by-key,whole"), files=1) as manager:
        manager.join(ONE)
        manager.join(TWO)
        assert manager.create(ONE, 10, 2, Access.READ, Share.READ) == (Refused(ONE, 10, Status.OBJECT_NAME_NOT_FOUND),)
        manager.create(ONE, 11, 1, Access.READ, Share.READ, CreateAsk(KEY, R))
        manager.create(TWO, 20, 1, Access.READ, Share.READ, CreateAsk(OTHER_KEY, RWH))
        [again] = manager.create(ONE, 12, 1, Access.READ, Share.READ, CreateAsk(KEY, RWH))
    assert isinstance(again, Opened) and again.answer.state == R


def test_threads_share_a_manager() -> None:
    """Each call gives its own decisions, whichever thread it comes from."""
    manager = Manager(Rules())
    found: list[tuple[int, Decisions]] = []

    def use(client: int) -> None:
        manager.join(client)
        for tag in range(100):
            found.append((client, manager.create(client, tag, client, Access.READ, Share.READ)))
    threads = [threading.Thread(target=use, args=(client,)) for client in range(1, 5)]
    for thread in threads:
        thread.start()
    for thread in threads:
        thread.join()
    opens = [it for _, decisions in found for it in decisions]
    assert all(isinstance(it, Opened) for it in opens)
    assert sorted(it.file_id for it in opens if isinstance(it, Opened)) == list(range(1, 401))
    assert all(it.client == client for client, decisions in found for it in decisions if isinstance(it, Opened))
    assert {it.client for it in manager.opens()} == {1, 2, 3, 4}


def expected(script: Path) -> str:
    """What the example in C prints, which tests/c compares too."""
    return (TESTS / "c/file_server" / script.stem).read_text(encoding="ascii")


@pytest.mark.parametrize("script", SCRIPTS)
def test_the_example_plays(tmp_path: Path, script: Path) -> None:
    assert run(EXAMPLE, tmp_path, script) == Finished(0, expected(script))


@pytest.mark.parametrize("script, step", [
    pytest.param(it.values[0], step, id=f"{it.id}-{step}", marks=[pytest.mark.long] if step == 1 else [])
    for it in SCRIPTS for step in (1, 4) if it.id in ("durable_open", "break_expires") or step == 1])
def test_each_allocation_refused(library: str, tmp_path: Path, script: Path, step: int) -> None:
    """Each is refused alone, and with all that follow: the manager is lost, or was never made."""
    said = Counter[str]()
    for whole, done in refusals(library, tmp_path / "calls", step, EXAMPLE, tmp_path, script):
        assert whole == expected(script) and done.status == LOST, done
        assert whole.startswith(done.output.rpartition("- ")[0]), done
        said[done.errors.removeprefix("play_file_server.py: ")] += 1
    assert said.pop("there is no memory for a manager\n") == 2
    assert set(said) == {"memory ran out within a call of the manager, which is lost\n"}
