// Made by tools/plain_rust from crates/lease_client/src/entry.rt. Changes belong there.

use crate::proved::lease_client::entry::handles::Handles;
use crate::proved::lease_client::file::File;
use crate::proved::lease_client::writes::queue::Writes;
use crate::proved::lease_state::{Access, FileId, LeaseState, Patch, Share};
use std::alloc::Global;
use std::mem;

pub mod answered;
pub mod breaks;
pub mod commands;
pub mod connection;
pub mod created;
pub mod handles;
pub mod opens;
pub mod turn;

/// A write that isn't answered. A buffered one was answered before it was sent.
#[derive(Debug)]
pub struct Pending {
    pub number: u64,
    pub patch: Patch,
    pub buffered: bool,
}

/// The access and the share of a create that is under way.
#[derive(Clone, Copy, Debug)]
pub struct Asked {
    pub access: Access,
    pub share: Share,
}

/// What the client knows of its open of a file (MS-SMB2 3.2.1.5, 3.2.1.6).
#[derive(Debug)]
pub struct Live {
    pub file_id: FileId,
    pub access: Access,
    pub share: Share,
    pub durable: bool,
    /// What the client believes of the lease's state.
    pub belief: LeaseState,
    /// With no handle the entry is parked.
    pub handles: Handles,
    /// How many Reads aren't answered.
    pub reads: u32,
    /// The file as last known, and the buffered writes that aren't sent.
    pub file: File,
}

/// What the client keeps of an open whose connection was lost: the open, and buffered writes.
#[derive(Debug)]
pub struct Parted {
    pub file_id: FileId,
    pub access: Access,
    pub share: Share,
    pub handles: u32,
    /// The buffered writes that weren't answered, in order.
    pub writes: Writes,
}

/// How far a file is open.
#[derive(Debug)]
pub enum Phase {
    Closed,
    /// A create is sent and not answered.
    Opening {
        access: Access,
        share: Share,
    },
    Live(Live),
    /// The connection of the open was lost.
    Offline(Parted),
    /// A create that names the old open is sent and not answered.
    Reconnecting(Parted),
}

/// A file's entry. In every phase the file has its sent, unanswered writes, in order.
#[derive(Debug)]
pub struct Entry {
    pub phase: Phase,
    pub sent: Writes,
}

impl Entry {
    /// The entry of a file that isn't open. Allocates nothing.
    pub fn closed(alloc: Global) -> Entry {
        Entry { phase: Phase::Closed, sent: Writes::new(alloc) }
    }

    /// The entry of a file that isn't open, with its sent, unanswered writes.
    pub fn shut(sent: Writes) -> Entry {
        Entry { phase: Phase::Closed, sent }
    }

    /// The entry of a live open, with its sent, unanswered writes.
    pub fn live(live: Live, sent: Writes) -> Entry {
        Entry { phase: Phase::Live(live), sent }
    }

    /// Takes the entry out of its place, where a closed one stays. Allocates nothing.
    pub fn take(&mut self) -> Entry {
        let alloc = self.alloc();
        mem::replace(self, Entry::closed(alloc))
    }

    /// The entry that was taken out of this place is put back.
    pub fn put_back(&mut self, phase: Phase, sent: Writes) {
        *self = Entry { phase, sent };
    }

    /// What the client believes of the lease: nothing is cached where the entry isn't live.
    pub fn belief(&self) -> LeaseState {
        match &self.phase {
            Phase::Live(live) => live.belief,
            _ => LeaseState::NONE,
        }
    }

    /// The allocator of the entry.
    pub fn alloc(&self) -> Global {
        self.sent.alloc()
    }
}
