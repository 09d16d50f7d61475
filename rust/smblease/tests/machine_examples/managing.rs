use smblease_std::alloc::Global;
use smblease_std::prelude::Vec;
use smblease_std::test::passes;
mod breaks;
mod ends;
mod timers;
mod words;

use smblease::proved::lease_manager::{Ask, ClientNo, Decision, FileNo, HeldLease, ListedOpen, Manager, Tag};
use smblease::proved::lease_state::{Access, FileId, LeaseState, Order, Rise, Rules, Share, Status};
use smblease_std::test::Fail;
use words::{FILE, KEY, ONE, TWO, create, gave, joined, opened};

#[test]
fn a_new_manager_has_nothing() {
    passes(|| -> Result<(), Fail> {
        let rules = Rules { order: Order::ByKey, rise: Rise::Whole };
        let manager = Manager::new(Global, rules);
        assert_eq!(manager.rules(), rules);
        assert_eq!(manager.open_count(), 0);
        assert!(manager.opens()?.is_empty());
        assert!(!manager.is_connected(ONE));
        assert!(!manager.is_breaking(ONE, KEY));
        assert!(!manager.is_waiting(FILE, ONE, Tag(1)));
        assert!(!manager.has_left_behind(FileId(1)));
        assert_eq!(manager.kept(ONE, FILE), None);
        assert_eq!(manager.lease(ONE, KEY).state, LeaseState::NONE);
        Ok(())
    })
}

#[test]
fn a_client_that_has_not_joined_is_told_nothing() {
    passes(|| -> Result<(), Fail> {
        let alloc = Global;
        let mut manager = Manager::new(alloc, Rules::profile());
        let mut told = Vec::new(alloc);
        manager.ask(ONE, Tag(1), create(KEY, 7, false), &mut told)?;
        assert!(told.is_empty());
        manager.acknowledge(ONE, KEY, LeaseState::NONE, &mut told)?;
        assert!(told.is_empty());
        assert_eq!(manager.open_count(), 0);
        manager.join(ONE)?;
        assert!(manager.is_connected(ONE) && !manager.is_connected(TWO));
        Ok(())
    })
}

#[test]
fn what_is_open_is_listed() {
    passes(|| -> Result<(), Fail> {
        let alloc = Global;
        let mut manager = joined(alloc)?;
        let mut told = Vec::new(alloc);
        manager.ask(ONE, Tag(10), create(KEY, 7, true), &mut told)?;
        assert!(gave(&told, &[opened(ONE, 10, 1, KEY, 7, true)]));
        let one = ListedOpen {
            file_id: FileId(1),
            client: ONE,
            file: FILE,
            lease_key: Some(KEY),
            access: Access::ReadWrite,
            share: Share::ReadWrite,
            durable: true,
            connected: true,
        };
        assert_eq!(manager.opens()?.as_slice(), [one].as_slice());
        let HeldLease { state, broken_to } = manager.lease(ONE, KEY);
        assert_eq!(state, LeaseState::from_wire(7));
        assert_eq!(broken_to, None);
        manager.ask(ONE, Tag(11), Ask::Close { fid: FileId(1) }, &mut told)?;
        let closed = Decision::Closed { client: ONE, tag: Tag(11) };
        assert!(gave(&told, &[closed]));
        assert_eq!(manager.open_count(), 0);
        Ok(())
    })
}

#[test]
fn the_number_0_is_no_file() {
    passes(|| -> Result<(), Fail> {
        let alloc = Global;
        let mut manager = joined(alloc)?;
        let mut told = Vec::new(alloc);
        let ask = match create(KEY, 7, false) {
            Ask::Create { access, share, ask, .. } => Ask::Create { file: FileNo(0), access, share, ask },
            other => other,
        };
        manager.ask(ONE, Tag(3), ask, &mut told)?;
        let refused = Decision::Refused { client: ClientNo(1_000_000_000_001), tag: Tag(3), status: Status::ObjectNameNotFound };
        assert!(gave(&told, &[refused]));
        Ok(())
    })
}

#[test]
fn a_create_past_the_last_file_is_refused() {
    passes(|| -> Result<(), Fail> {
        let alloc = Global;
        let mut manager = Manager::with_files(alloc, Rules::profile(), FileNo(2));
        assert_eq!(manager.files(), FileNo(2));
        assert!(FileNo(2).is_file(manager.files()) && !FileNo(3).is_file(manager.files()));
        manager.join(ONE)?;
        let mut told = Vec::new(alloc);
        for (tag, file) in [(10, 2), (11, 3)] {
            let ask = match create(KEY, 7, false) {
                Ask::Create { access, share, ask, .. } => Ask::Create { file: FileNo(file), access, share, ask },
                other => other,
            };
            manager.ask(ONE, Tag(tag), ask, &mut told)?;
            let refused = Decision::Refused { client: ONE, tag: Tag(11), status: Status::ObjectNameNotFound };
            let wanted = if file == 2 { opened(ONE, 10, 1, KEY, 7, false) } else { refused };
            assert!(gave(&told, &[wanted]));
        }
        Ok(())
    })
}

#[test]
fn an_acknowledgment_that_cannot_be_read_is_answered() {
    passes(|| -> Result<(), Fail> {
        let alloc = Global;
        let mut manager = joined(alloc)?;
        let mut told = Vec::new(alloc);
        manager.acknowledge_malformed(ONE, &mut told)?;
        let answer = Decision::NotAcknowledged { client: ONE, status: Status::InvalidParameter };
        assert!(gave(&told, &[answer]));
        Ok(())
    })
}

#[test]
fn writes_are_allowed_to_the_key_that_is_alone() {
    passes(|| -> Result<(), Fail> {
        let alloc = Global;
        let mut manager = joined(alloc)?;
        let mut told = Vec::new(alloc);
        manager.ask(ONE, Tag(10), create(KEY, 7, false), &mut told)?;
        let want = LeaseState::from_wire(7);
        assert_eq!(manager.allowed(ONE, Some(KEY), FILE, want), want);
        assert_eq!(manager.allowed(TWO, Some(KEY), FILE, want), LeaseState::from_wire(3));
        assert_eq!(manager.allowed(ONE, None, FILE, want), LeaseState::from_wire(3));
        assert!(manager.has_open(FileId(1)) && !manager.has_open(FileId(2)));
        Ok(())
    })
}
