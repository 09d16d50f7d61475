//! Whether changes within their bounds can have happened without a clash.

use leasecheck::proved::capture_judge::{Chain, Change, Level, Placing, Step, judge_placing};
use smblease::proved::lease_state::Memory;
use smblease_std::alloc::Global;
use smblease_std::prelude::{Vec, vec};
use smblease_std::test::{Fail, passes};

fn change(level: Level, first: u64, last: u64) -> Change {
    Change { level, first, last: Some(last) }
}

fn doubtful(level: Level, first: u64) -> Change {
    Change { level, first, last: None }
}

fn chain(alloc: Global, client: u64, changes: &[Change]) -> Result<Chain, Memory> {
    let changes = Vec::from_slice(alloc, changes)?;
    Ok(Chain { client, changes })
}

fn step(position: u64, chain: usize, change: usize) -> Step {
    Step { position, chain, change }
}

// The steps of a clean placement, where the verdict is that there is one.
fn clean_steps(placing: Placing) -> Option<Vec<Step>> {
    match placing {
        Placing::Clean(steps) => Some(steps),
        _ => None,
    }
}

// The position of the charge, where there is one.
fn charged_position(placing: &Placing) -> Option<u64> {
    match placing {
        Placing::Unsafe(charge) => Some(charge.position),
        _ => None,
    }
}

// The writer may have lowered its lease in time.
#[test]
fn doubtful_changes_may_have_happened() {
    passes(|| -> Result<(), Fail> {
        let alloc = Global;
        let writer = chain(alloc, 1, &[change(Level::Writes, 2, 2), doubtful(Level::Something, 2)])?;
        let reader = chain(alloc, 2, &[change(Level::Something, 8, 8)])?;
        let placing = judge_placing(alloc, &[writer, reader])?;
        let wanted = [step(2, 0, 0), step(2, 0, 1), step(8, 1, 0)];
        assert!(clean_steps(placing).is_some_and(|steps| steps.as_slice() == wanted.as_slice()));
        Ok(())
    })
}

// The writer's first change has to come before its second one, which must have happened at 1.
#[test]
fn later_changes_bound_earlier_ones() {
    passes(|| -> Result<(), Fail> {
        let alloc = Global;
        let writer = chain(alloc, 1, &[change(Level::Writes, 1, 3), change(Level::Writes, 1, 1)])?;
        let reader = chain(alloc, 2, &[change(Level::Something, 1, 1), change(Level::Nothing, 3, 3)])?;
        let placing = judge_placing(alloc, &[writer, reader])?;
        assert_eq!(charged_position(&placing), Some(1));
        Ok(())
    })
}

// The doubtful change can't have happened before 6, and the one behind it may have happened without it.
#[test]
fn doubtful_changes_may_be_left_out() {
    passes(|| -> Result<(), Fail> {
        let alloc = Global;
        let changes = [change(Level::Writes, 2, 2), doubtful(Level::Nothing, 6), change(Level::Nothing, 3, 6)];
        let writer = chain(alloc, 1, &changes)?;
        let reader = chain(alloc, 2, &[change(Level::Something, 4, 5)])?;
        let placing = judge_placing(alloc, &[writer, reader])?;
        let wanted = [step(2, 0, 0), step(5, 0, 2), step(5, 1, 0)];
        assert!(clean_steps(placing).is_some_and(|steps| steps.as_slice() == wanted.as_slice()));
        Ok(())
    })
}

// Two leases of one client don't clash, and the lower one doesn't lower its client's level.
#[test]
fn leases_of_one_client_go_together() {
    passes(|| -> Result<(), Fail> {
        let alloc = Global;
        let writer = chain(alloc, 1, &[change(Level::Writes, 2, 2)])?;
        let also = chain(alloc, 1, &[change(Level::Something, 3, 3)])?;
        let reader = chain(alloc, 2, &[change(Level::Something, 4, 4)])?;
        let placing = judge_placing(alloc, &[writer, also, reader])?;
        assert_eq!(charged_position(&placing), Some(4));
        Ok(())
    })
}

#[test]
fn bounds_may_contradict_one_another() {
    passes(|| -> Result<(), Fail> {
        let alloc = Global;
        let writer = chain(alloc, 1, &[change(Level::Writes, 5, 9), change(Level::Nothing, 1, 4)])?;
        let placing = judge_placing(alloc, &[writer])?;
        assert!(matches!(placing, Placing::Contradictory));
        Ok(())
    })
}

// Twelve readers have been broken, and each may have left at any time since: that they left at once serves best.
#[test]
fn readers_leave_at_once() {
    passes(|| -> Result<(), Fail> {
        let alloc = Global;
        let mut chains = vec![in alloc; chain(alloc, 0, &[change(Level::Writes, 40, 40)])?]?;
        for client in 1..13 {
            let changes = [change(Level::Something, client, client), change(Level::Nothing, 20, 40)];
            chains.push(chain(alloc, client, &changes)?)?;
        }
        let placing = judge_placing(alloc, chains.as_slice())?;
        assert!(clean_steps(placing).is_some());
        Ok(())
    })
}

// Twelve readers may have begun at any time up to some position each: that they began then serves best.
#[test]
fn readers_begin_at_last() {
    passes(|| -> Result<(), Fail> {
        let alloc = Global;
        let writes = [change(Level::Writes, 1, 2), change(Level::Something, 3, 10)];
        let mut chains = vec![in alloc; chain(alloc, 0, &writes)?]?;
        for client in 1..13 {
            chains.push(chain(alloc, client, &[change(Level::Something, 1, 10 + client)])?)?;
        }
        let placing = judge_placing(alloc, chains.as_slice())?;
        assert!(clean_steps(placing).is_some());
        Ok(())
    })
}

// Eleven leases of one client, each of which may have been raised and lowered again. With each allocation refused in turn it would take half
// a minute.
#[test]
fn too_many_ways_are_not_decided() -> Result<(), Memory> {
    let mut chains = vec![in Global; chain(Global, 0, &[change(Level::Nothing, 1, 1)])?]?;
    for _i in 0..11 {
        let changes = [doubtful(Level::Writes, 1), doubtful(Level::Something, 1)];
        chains.push(chain(Global, 0, &changes)?)?;
    }
    assert!(matches!(judge_placing(Global, chains.as_slice())?, Placing::TooMany));
    Ok(())
}
