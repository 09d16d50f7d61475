// Made by tools/plain_rust from crates/capture_walk/src/renames.rt. Changes belong there.

use crate::proved::capture_walk::note::Seen;
use smblease::proved::lease_state::Memory;
use std::alloc::Global;
use std::collections::BTreeSet;

// A request that changes names.
#[derive(Clone, Copy, Debug, PartialEq, Eq, PartialOrd, Ord)]
pub(crate) struct Renaming {
    connection: u64,
    id: u64,
}

/// The requests that change names.
#[derive(Debug)]
pub(crate) struct Renames {
    asked: BTreeSet<Renaming>,
}

impl Renames {
    /// None. Allocates nothing.
    pub(crate) fn new(alloc: Global) -> Renames {
        Renames { asked: BTreeSet::new(alloc) }
    }

    // Whether a request on a connection with this MessageId changes names.
    fn has(&self, connection: u64, id: u64) -> bool {
        self.asked.contains(&Renaming { connection, id })
    }

    // Whether the message answers such a request.
    fn answers(&self, seen: &Seen<'_>) -> bool {
        match seen.note.answered() {
            Some(id) => self.has(seen.connection, id),
            None => false,
        }
    }

    /// Whether names may lead to other files after the message.
    pub(crate) fn is_change(&self, seen: &Seen<'_>) -> bool {
        seen.note.rename_asked().is_some() || (self.answers(seen) || seen.note.is_gap())
    }

    /// Takes note of the next message.
    pub(crate) fn note(&mut self, seen: &Seen<'_>) -> Result<(), Memory> {
        if let Some(id) = seen.note.rename_asked() {
            let connection = seen.connection;
            self.asked.insert(Renaming { connection, id })?;
        }
        Ok(())
    }
}
