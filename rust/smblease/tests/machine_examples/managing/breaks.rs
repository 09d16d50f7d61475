//! What waits for a break, and how it goes on.

use super::words::{FILE, KEY, LATER_KEY, ONE, TWO, breaks, create, gave, joined, opened};
use smblease::proved::lease_manager::{Ask, Decision, Tag};
use smblease::proved::lease_state::{FileId, LeaseState, Status};
use smblease_std::alloc::Global;
use smblease_std::prelude::Vec;
use smblease_std::test::Fail;
use smblease_std::test::passes;

#[test]
fn a_create_waits_for_a_break() {
    passes(|| -> Result<(), Fail> {
        let alloc = Global;
        let mut manager = joined(alloc)?;
        let mut told = Vec::new(alloc);
        manager.ask(ONE, Tag(10), create(KEY, 7, false), &mut told)?;
        assert!(gave(&told, &[opened(ONE, 10, 1, KEY, 7, false)]));
        manager.ask(TWO, Tag(20), create(LATER_KEY, 7, false), &mut told)?;
        let waits = Decision::Waits { client: TWO, tag: Tag(20) };
        assert!(gave(&told, &[breaks(ONE, KEY, 7, 3), waits]));
        assert!(manager.is_breaking(ONE, KEY) && manager.is_waiting(FILE, TWO, Tag(20)));
        let write = Ask::Write { fid: FileId(1), fits: true };
        manager.ask(ONE, Tag(11), write, &mut told)?;
        let goes_on = Decision::GoesOn { client: ONE, tag: Tag(11) };
        assert!(gave(&told, &[goes_on]));
        manager.acknowledge(ONE, KEY, LeaseState::from_wire(3), &mut told)?;
        let acknowledged = Decision::Acknowledged { client: ONE, key: KEY, state: LeaseState::from_wire(3) };
        let second = opened(TWO, 20, 2, LATER_KEY, 3, false);
        assert!(gave(&told, &[acknowledged, second]));
        assert!(!manager.is_breaking(ONE, KEY) && !manager.is_waiting(FILE, TWO, Tag(20)));
        Ok(())
    })
}

#[test]
fn requests_are_refused() {
    passes(|| -> Result<(), Fail> {
        let alloc = Global;
        let mut manager = joined(alloc)?;
        let mut told = Vec::new(alloc);
        manager.ask(ONE, Tag(10), create(KEY, 7, false), &mut told)?;
        let write = Ask::Write { fid: FileId(1), fits: false };
        manager.ask(ONE, Tag(11), write, &mut told)?;
        let too_long = Decision::Refused { client: ONE, tag: Tag(11), status: Status::InvalidParameter };
        assert!(gave(&told, &[too_long]));
        manager.ask(TWO, Tag(22), Ask::Read { fid: FileId(1) }, &mut told)?;
        let not_open = Decision::Refused { client: TWO, tag: Tag(22), status: Status::FileClosed };
        assert!(gave(&told, &[not_open]));
        manager.acknowledge(ONE, KEY, LeaseState::NONE, &mut told)?;
        let unasked = Decision::NotAcknowledged { client: ONE, status: Status::Unsuccessful };
        assert!(gave(&told, &[unasked]));
        Ok(())
    })
}

#[test]
fn what_waits_is_taken_back() {
    passes(|| -> Result<(), Fail> {
        let alloc = Global;
        let mut manager = joined(alloc)?;
        let mut told = Vec::new(alloc);
        manager.ask(ONE, Tag(10), create(KEY, 7, false), &mut told)?;
        manager.ask(TWO, Tag(20), create(LATER_KEY, 7, false), &mut told)?;
        manager.withdraw(FILE, TWO, Tag(21), &mut told)?;
        assert!(told.is_empty());
        manager.withdraw(FILE, TWO, Tag(20), &mut told)?;
        let withdrawn = Decision::Withdrawn { client: TWO, tag: Tag(20) };
        assert!(gave(&told, &[withdrawn]));
        assert!(!manager.is_waiting(FILE, TWO, Tag(20)));
        manager.acknowledge(ONE, KEY, LeaseState::from_wire(3), &mut told)?;
        assert_eq!(told.len(), 1);
        assert_eq!(manager.open_count(), 1);
        Ok(())
    })
}
