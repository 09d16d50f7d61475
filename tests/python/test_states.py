"""States and conflicts of opens, over all values, as include/smblease.h has them."""
from __future__ import annotations

import itertools

import pytest

import smblease
from smblease import Access, LeaseState, Share

STATES = [LeaseState(bits) for bits in range(8)]
ACCESSES: list[Access | None] = [None, *Access]


@pytest.mark.parametrize("state", STATES, ids=str)
def test_states(state: LeaseState) -> None:
    assert [smblease.is_within(state, other) for other in STATES] == [state & other == state for other in STATES]
    assert smblease.granted_form(state) == (state if LeaseState.R in state else LeaseState.NONE)
    assert smblease.needs_acknowledgment(state) == (state not in (LeaseState.NONE, LeaseState.R))


@pytest.mark.parametrize("access", ACCESSES, ids=str)
def test_conflicts(access: Access | None) -> None:
    """The access of one isn't within the share of the other; one without access conflicts with none."""
    for share, other_access, other_share in itertools.product(Share, ACCESSES, Share):
        expected = bool(access and other_access
                        and (access.value & ~other_share.value or other_access.value & ~share.value))
        assert smblease.opens_conflict(access, share, other_access, other_share) == expected, (share, other_access, other_share)
