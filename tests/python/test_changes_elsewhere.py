"""Changes are tried again on the files that a call was about. Here it is seen whether any is free then that waits elsewhere."""
from __future__ import annotations

import random
import uuid
from typing import Iterable, Optional

import pytest

from smblease import Access, CreateAsk, Extent, LeaseState, Manager, Rules, Share
from smblease.manager_decisions import Closed, Decisions, GoesOn, NotAcknowledged, Opened, Refused, Waits
from tests.python.compared import first_difference
from tests.python.drawn_calls import ALL_RULES
from tests.python.plain_manager import PlainManager
from tests.python.plain_rules import Request
from tests.python.plain_tables import Decided

CALLS, MANY_CALLS = 5_000, 200_000
KEY, OTHER_KEY = uuid.UUID(int=1), uuid.UUID(int=2)
RH = LeaseState.of("RH")


class GoesOnAnywhere(PlainManager):
    """After each call that tries changes again, those go on too that are free on other files."""

    def _changes_after(self, decided: Decided, files: Iterable[int], request: Optional[Request] = None) -> Decisions:
        told = [*super()._changes_after(decided, files, request)]
        for file in dict.fromkeys(it.file for it in self._changes):
            self._let_go(file, told)
        return tuple(told)


@pytest.mark.parametrize("count", [CALLS, pytest.param(MANY_CALLS, marks=pytest.mark.long)])
@pytest.mark.parametrize("rules", ALL_RULES, ids=str)
def test_no_other_is_free(rules: Rules, count: int, chooser: random.Random) -> None:
    found = first_difference(chooser, count, rules, GoesOnAnywhere)
    assert found is None, f"\n{found}"


def test_a_close_that_waited_frees_a_change() -> None:
    """A create that waits is refused at the next call of any kind, since its key has come to another file; the close after it is
    done then, and nothing is in the change's way any longer."""
    manager = Manager(Rules.of("by-client,whole"))
    manager.join(1)
    manager.create(1, 10, 5, Access.READ, Share.READ, CreateAsk(KEY, RH))
    assert manager.create(1, 11, 5, Access.READ, Share.NONE, CreateAsk(OTHER_KEY, RH))[1:] == (Waits(1, 11),)
    assert manager.close_open(1, 12, 1) == (Waits(1, 12),)
    assert manager.change(2, 20, None, 5, Extent.HANDLES) == (Waits(2, 20),)
    [opened] = manager.create(1, 13, 6, Access.READ, Share.READ, CreateAsk(OTHER_KEY, RH))
    assert isinstance(opened, Opened)
    decided = manager.acknowledge_malformed(1)
    assert list(map(type, decided[:3])) == [NotAcknowledged, Refused, Closed]
    assert manager.given_up(2, None, 5, Extent.HANDLES) and not manager.run_out(1)
    assert decided[3:] == (GoesOn(2, 20),) and not manager.changes()
