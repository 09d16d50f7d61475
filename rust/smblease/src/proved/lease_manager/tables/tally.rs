// Made by tools/plain_rust from crates/lease_manager/src/tables/tally.rt. Changes belong there.

use crate::proved::lease_manager::values::open::OpenEntry;
use crate::proved::lease_state::{Access, Share};

/// Counts of opens: how many there are, and how many of them read, write, refuse others to read and
/// refuse others to write.
#[derive(Clone, Copy, Debug)]
pub struct Tally {
    pub opens: u64,
    pub reads: u64,
    pub writes: u64,
    pub refuses_reads: u64,
    pub refuses_writes: u64,
}

impl Tally {
    /// No open is counted.
    pub fn none() -> Tally {
        Tally { opens: 0, reads: 0, writes: 0, refuses_reads: 0, refuses_writes: 0 }
    }

    /// Whether no open is counted.
    pub fn is_empty(self) -> bool {
        self.opens == 0
    }

    /// With one open more.
    pub fn raised(self, one: &OpenEntry) -> Tally {
        Tally {
            opens: raised(self.opens, true),
            reads: raised(self.reads, one.access.reads()),
            writes: raised(self.writes, one.access.writes()),
            refuses_reads: raised(self.refuses_reads, !one.share.allows_reads()),
            refuses_writes: raised(self.refuses_writes, !one.share.allows_writes()),
        }
    }

    /// With one open less.
    pub fn lowered(self, one: &OpenEntry) -> Tally {
        Tally {
            opens: lowered(self.opens, true),
            reads: lowered(self.reads, one.access.reads()),
            writes: lowered(self.writes, one.access.writes()),
            refuses_reads: lowered(self.refuses_reads, !one.share.allows_reads()),
            refuses_writes: lowered(self.refuses_writes, !one.share.allows_writes()),
        }
    }

    /// Whether some counted open conflicts with this access and share (MS-SMB2 3.3.5.9).
    pub fn conflicts(self, access: Access, share: Share) -> bool {
        (!share.allows_reads() && self.reads > 0)
            || (!share.allows_writes() && self.writes > 0)
            || (access.reads() && self.refuses_reads > 0)
            || (access.writes() && self.refuses_writes > 0)
    }
}

// One more, where one is to be counted. FileIds end first: no count comes to the last number.
fn raised(count: u64, is_counted: bool) -> u64 {
    if is_counted { count.saturating_add(1) } else { count }
}

// One less, where one was counted.
fn lowered(count: u64, was_counted: bool) -> u64 {
    if was_counted { count.saturating_sub(1) } else { count }
}
