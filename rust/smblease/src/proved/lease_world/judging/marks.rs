// Made by tools/plain_rust from crates/lease_world/src/judging/marks.rt. Changes belong there.

use std::prelude::Vec;

use crate::proved::lease_state::Memory;
use crate::proved::lease_world::judging::file::Change;
use crate::proved::lease_world::judging::snapshot::Snapshot;

// How long a way is worth a copy of a file without bytes.
const SHORT: usize = 16;

/// A file after some of its changes, none of which stands after a place. From there it is brought to later places.
// docs/DECISIONS.md: "How a judge's time and memory grow".
#[derive(Debug)]
pub struct Mark {
    snapshot: Snapshot,
    until: u64,
}

impl Mark {
    /// Of a file before its changes.
    pub fn first(snapshot: Snapshot) -> Mark {
        Mark { snapshot, until: 0 }
    }

    /// The file after these changes.
    pub fn snapshot(&self) -> &Snapshot {
        &self.snapshot
    }

    /// An equal mark in memory of its own.
    ///
    /// # Errors
    ///
    /// `Memory` where there is none left.
    pub fn try_copy(&self) -> Result<Mark, Memory> {
        Ok(Mark { snapshot: self.snapshot.try_copy()?, until: self.until })
    }

    // One change more.
    fn put(&mut self, change: &Change) -> Result<(), Memory> {
        self.snapshot.put(change)?;
        self.until = self.until.max(change.place);
        Ok(())
    }
}

/// Whether so much lies between a snapshot and a place that it is worth a copy of the snapshot.
pub fn is_far(base: &Snapshot, changes: &[Change], place: u64) -> bool {
    let mut left = worth(base);
    let mut next = base.applied();
    while left > 0 && next < changes.len() {
        let change = &changes[next];
        if change.place >= place {
            return false;
        }
        left = left.saturating_sub(work(change));
        next += 1;
    }
    left == 0
}

/// Leaves marks on the way from this one to the place, each where the way from the last one is worth a copy.
///
/// # Errors
///
/// `Memory` where there is none left for a mark.
pub fn leave_marks(marks: &mut Vec<Mark>, changes: &[Change], last: Mark, place: u64) -> Result<(), Memory> {
    let mut front = last;
    let mut left = worth(front.snapshot());
    while front.snapshot.applied() < changes.len() {
        let change = &changes[front.snapshot.applied()];
        if change.place >= place {
            break;
        }
        front.put(change)?;
        left = left.saturating_sub(work(change));
        if left == 0 {
            left = worth(front.snapshot());
            marks.push(front.try_copy()?)?;
        }
    }
    Ok(())
}

/// The last of the marks that stand before the place, where they are in order.
pub fn last_before(marks: &[Mark], place: u64) -> Option<&Snapshot> {
    let count = marks.partition_point(|mark| mark.until < place);
    let mark = marks.get(count.checked_sub(1)?)?;
    if mark.until < place { Some(&mark.snapshot) } else { None }
}

// How long a way is worth a copy of the snapshot: as many steps as it has bytes, and some more.
fn worth(snapshot: &Snapshot) -> usize {
    snapshot.bytes().len().saturating_add(SHORT)
}

// How many steps a change takes: one, and one for each of its bytes.
fn work(change: &Change) -> usize {
    change.patch.bytes.len().saturating_add(1)
}
