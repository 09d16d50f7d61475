//! Opens that end though their clients didn't close them.

use super::words::{FILE, KEY, LATER_KEY, ONE, TWO, breaks, create, gave, joined, opened, reconnect};
use smblease::proved::lease_manager::{Decision, Tag};
use smblease::proved::lease_state::{FileId, LeaseState};
use smblease_std::alloc::Global;
use smblease_std::prelude::Vec;
use smblease_std::test::Fail;
use smblease_std::test::passes;

const FIRST_ENDS: Decision = Decision::Ended { file_id: FileId(1) };

#[test]
fn an_open_that_was_left_ends_when_its_handle_is_wanted() {
    passes(|| -> Result<(), Fail> {
        let alloc = Global;
        let mut manager = joined(alloc)?;
        let mut told = Vec::new(alloc);
        manager.ask(ONE, Tag(10), create(KEY, 7, true), &mut told)?;
        manager.cut(ONE, &mut told)?;
        assert!(gave(&told, &[Decision::LeftBehind { file_id: FileId(1) }]));
        assert!(manager.has_left_behind(FileId(1)) && !manager.is_connected(ONE));
        assert_eq!(manager.kept(ONE, FILE), Some(FileId(1)));
        manager.ask(TWO, Tag(20), create(LATER_KEY, 7, false), &mut told)?;
        let second = opened(TWO, 20, 2, LATER_KEY, 7, false);
        assert!(gave(&told, &[FIRST_ENDS, second]));
        manager.cut(TWO, &mut told)?;
        let ends = Decision::Ended { file_id: FileId(2) };
        assert!(gave(&told, &[ends]));
        assert_eq!(manager.open_count(), 0);
        Ok(())
    })
}

#[test]
fn an_open_that_was_left_is_connected_again() {
    passes(|| -> Result<(), Fail> {
        let alloc = Global;
        let mut manager = joined(alloc)?;
        let mut told = Vec::new(alloc);
        manager.ask(ONE, Tag(10), create(KEY, 7, true), &mut told)?;
        manager.cut(ONE, &mut told)?;
        manager.join(ONE)?;
        manager.ask(ONE, Tag(11), reconnect(KEY, 1), &mut told)?;
        assert!(gave(&told, &[opened(ONE, 11, 1, KEY, 7, false)]));
        assert!(!manager.has_left_behind(FileId(1)));
        Ok(())
    })
}

#[test]
fn timers_end_opens() {
    passes(|| -> Result<(), Fail> {
        let alloc = Global;
        let mut manager = joined(alloc)?;
        let mut told = Vec::new(alloc);
        manager.ask(ONE, Tag(10), create(KEY, 7, true), &mut told)?;
        manager.cut(ONE, &mut told)?;
        manager.scavenge(FileId(2), &mut told)?;
        assert!(told.is_empty());
        manager.scavenge(FileId(1), &mut told)?;
        assert!(gave(&told, &[FIRST_ENDS]));
        manager.ask(TWO, Tag(20), create(LATER_KEY, 7, false), &mut told)?;
        manager.join(ONE)?;
        manager.ask(ONE, Tag(11), create(KEY, 7, false), &mut told)?;
        let waits = Decision::Waits { client: ONE, tag: Tag(11) };
        assert!(gave(&told, &[breaks(TWO, LATER_KEY, 7, 3), waits]));
        manager.expire(TWO, KEY, &mut told)?;
        assert!(told.is_empty());
        manager.expire(TWO, LATER_KEY, &mut told)?;
        let ends = Decision::Ended { file_id: FileId(2) };
        let third = opened(ONE, 11, 3, KEY, 7, false);
        assert!(gave(&told, &[ends, third]));
        assert_eq!(manager.lease(TWO, LATER_KEY).state, LeaseState::NONE);
        Ok(())
    })
}
