// Made by tools/plain_rust from crates/capture_walk/src/sides.rt. Changes belong there.

use crate::proved::capture_walk::note::Seen;
use smblease::proved::lease_state::Memory;
use std::alloc::Global;
use std::collections::BTreeMap;

/// Where the last messages of each connection were, on both sides.
#[derive(Debug)]
pub(crate) struct Sides {
    // By connections.
    requests: BTreeMap<u64, u64>,
    answers: BTreeMap<u64, u64>,
}

fn position(messages: &BTreeMap<u64, u64>, connection: u64) -> u64 {
    match messages.get(&connection) {
        Some(position) => *position,
        None => 0,
    }
}

impl Sides {
    /// Of no connection. Allocates nothing.
    pub(crate) fn new(alloc: Global) -> Sides {
        Sides { requests: BTreeMap::new(alloc), answers: BTreeMap::new(alloc) }
    }

    /// From which position on something may be missing of a connection, where it has a gap now.
    pub(crate) fn missing_since(&self, connection: u64) -> u64 {
        let request = position(&self.requests, connection);
        let answer = position(&self.answers, connection);
        if request < answer { request } else { answer }
    }

    /// Takes note of the next message.
    pub(crate) fn note(&mut self, seen: &Seen<'_>) -> Result<(), Memory> {
        if seen.note.is_request() {
            self.requests.insert(seen.connection, seen.earliest)?;
        }
        if seen.note.is_answer() {
            self.answers.insert(seen.connection, seen.earliest)?;
        }
        Ok(())
    }
}
