//! What the server holds for two clients, by the notes of its messages: where it grants the second one a lease beside the first
//! one's, and what may have taken that away before. Whatever they took, it is charged where they clash.

use crate::wire::walks::{answer, ask, break_to, grant, keeps, key, open_name, seen, use_open};
use leasecheck::proved::capture_judge::{Charge, Level, Placing, judge_placing};
use leasecheck::proved::capture_walk::{BreakNote, Index, Note, Walk, chains_on, tables_on};
use smblease::proved::lease_state::{LeaseState, Memory};
use smblease_std::alloc::Global;
use smblease_std::test::Fail;
use smblease_std::test::passes;

// The first client has a lease on the file 5, and the second one asks for another.
fn beside(alloc: Global, level: Level) -> Result<Walk, Memory> {
    let mut walk = Walk::new(alloc);
    ask(&mut walk, 1, 1, b"f\0")?;
    grant(&mut walk, 5, 1, level)?;
    ask(&mut walk, 8, 2, b"f\0")?;
    Ok(walk)
}

fn judged(alloc: Global, walk: &Walk) -> Result<Placing, Memory> {
    judge_placing(alloc, &tables_on(alloc, 5, walk.events(), &Index::of(alloc, walk.events())?)?)
}

// The second client isn't shown to have taken its lease, but the server granted that by 24, and the first one's is there still.
#[test]
fn a_grant_beside_a_lease_is_the_servers() {
    passes(|| -> Result<(), Fail> {
        let alloc = Global;
        let mut walk = beside(alloc, Level::Writes)?;
        grant(&mut walk, 12, 2, Level::Something)?;
        use_open(&mut walk, 13, 1)?;
        assert!(matches!(judged(alloc, &walk)?, Placing::Unsafe(Charge { position: 24, .. })));
        let chains = chains_on(alloc, 5, walk.events(), &Index::of(alloc, walk.events())?)?;
        assert!(matches!(judge_placing(alloc, &chains)?, Placing::Clean(_)));
        Ok(())
    })
}

// The server may have lost what the first client doesn't use any more by the time of the second one's grant.
#[test]
fn a_lease_that_is_not_used_any_more_may_be_lost() {
    passes(|| -> Result<(), Fail> {
        let alloc = Global;
        let mut walk = beside(alloc, Level::Writes)?;
        grant(&mut walk, 12, 2, Level::Something)?;
        assert!(matches!(judged(alloc, &walk)?, Placing::Clean(_)));
        Ok(())
    })
}

// The first client acknowledges a break. The server may grant the other lease before it answers that, and not before it has it.
#[test]
fn an_acknowledgment_makes_room() {
    passes(|| -> Result<(), Fail> {
        let alloc = Global;
        let mut walk = beside(alloc, Level::Writes)?;
        walk.take(&seen(12, 1, break_to(Level::Something, 0)))?;
        walk.take(&seen(13, 1, keeps(13, Level::Something)))?;
        grant(&mut walk, 14, 2, Level::Something)?;
        answer(&mut walk, 15, 1, 13)?;
        use_open(&mut walk, 16, 1)?;
        assert!(matches!(judged(alloc, &walk)?, Placing::Clean(_)));
        Ok(())
    })
}

#[test]
fn a_grant_before_the_acknowledgment_is_too_early() {
    passes(|| -> Result<(), Fail> {
        let alloc = Global;
        let mut walk = beside(alloc, Level::Writes)?;
        walk.take(&seen(12, 1, break_to(Level::Something, 0)))?;
        grant(&mut walk, 13, 2, Level::Something)?;
        walk.take(&seen(14, 1, keeps(14, Level::Something)))?;
        answer(&mut walk, 15, 1, 14)?;
        assert!(matches!(judged(alloc, &walk)?, Placing::Unsafe(Charge { position: 26, .. })));
        Ok(())
    })
}

// Nobody acknowledges the break: when its timer runs out the server may take all of the lease away.
#[test]
fn a_break_that_is_not_acknowledged_may_time_out() {
    passes(|| -> Result<(), Fail> {
        let alloc = Global;
        let mut walk = beside(alloc, Level::Writes)?;
        walk.take(&seen(12, 1, break_to(Level::Something, 0)))?;
        grant(&mut walk, 13, 2, Level::Writes)?;
        use_open(&mut walk, 14, 1)?;
        assert!(matches!(judged(alloc, &walk)?, Placing::Clean(_)));
        Ok(())
    })
}

// A lease for reads alone goes with its break, by the time at which that is sent.
#[test]
fn a_break_of_reads_alone_makes_room() {
    passes(|| -> Result<(), Fail> {
        let alloc = Global;
        let mut walk = beside(alloc, Level::Something)?;
        let taken_away = BreakNote { key: key(1), state: LeaseState::NONE, level: Level::Nothing, acknowledged: false, epoch: 0 };
        walk.take(&seen(12, 1, Note::Break(taken_away)))?;
        grant(&mut walk, 13, 2, Level::Writes)?;
        use_open(&mut walk, 14, 1)?;
        assert!(matches!(judged(alloc, &walk)?, Placing::Clean(_)));
        Ok(())
    })
}

#[test]
fn a_lease_for_reads_stays_without_a_break() {
    passes(|| -> Result<(), Fail> {
        let alloc = Global;
        let mut walk = beside(alloc, Level::Something)?;
        grant(&mut walk, 12, 2, Level::Writes)?;
        use_open(&mut walk, 13, 1)?;
        assert!(matches!(judged(alloc, &walk)?, Placing::Unsafe(Charge { position: 24, .. })));
        Ok(())
    })
}

// The last open is closed between its CLOSE and the answer.
#[test]
fn a_close_makes_room() {
    passes(|| -> Result<(), Fail> {
        let alloc = Global;
        let mut walk = beside(alloc, Level::Writes)?;
        walk.take(&seen(12, 1, Note::Close(open_name(12, 1))))?;
        grant(&mut walk, 13, 2, Level::Writes)?;
        answer(&mut walk, 14, 1, 12)?;
        assert!(matches!(judged(alloc, &walk)?, Placing::Clean(_)));
        Ok(())
    })
}

#[test]
fn a_grant_before_the_close_is_too_early() {
    passes(|| -> Result<(), Fail> {
        let alloc = Global;
        let mut walk = beside(alloc, Level::Writes)?;
        grant(&mut walk, 12, 2, Level::Writes)?;
        walk.take(&seen(13, 1, Note::Close(open_name(13, 1))))?;
        answer(&mut walk, 14, 1, 13)?;
        assert!(matches!(judged(alloc, &walk)?, Placing::Unsafe(Charge { position: 24, .. })));
        Ok(())
    })
}

// What is open may end with its connection, from then on.
#[test]
fn the_end_of_a_connection_makes_room() {
    passes(|| -> Result<(), Fail> {
        let alloc = Global;
        let mut walk = beside(alloc, Level::Writes)?;
        use_open(&mut walk, 12, 1)?;
        walk.take(&seen(14, 1, Note::End))?;
        grant(&mut walk, 15, 2, Level::Writes)?;
        assert!(matches!(judged(alloc, &walk)?, Placing::Clean(_)));
        Ok(())
    })
}
