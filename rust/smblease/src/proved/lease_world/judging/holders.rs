// Made by tools/plain_rust from crates/lease_world/src/judging/holders.rt. Changes belong there.

use std::prelude::Vec;

use crate::proved::lease_state::{FileNo, LeaseState, Memory};
use crate::proved::lease_world::judging::cache::CacheSeen;
use crate::proved::lease_world::judging::client::ClientSeen;
use std::alloc::Global;

/// How many good clients believe that they may cache something of a file, its holders, and how many of these that they may
/// cache writes. There are at most 256 clients.
#[derive(Clone, Copy, Debug)]
struct Holders {
    any: u16,
    writing: u16,
}

impl Holders {
    const fn none() -> Holders {
        Holders { any: 0, writing: 0 }
    }

    /// A client more that is good believes this.
    fn enter(&mut self, state: LeaseState) {
        if state.is_none() {
            return;
        }
        self.any = self.any.saturating_add(1);
        if state.caches_writes() {
            self.writing = self.writing.saturating_add(1);
        }
    }

    /// A client less that is good believes this.
    fn leave(&mut self, state: LeaseState) {
        if state.is_none() {
            return;
        }
        self.any = self.any.saturating_sub(1);
        if state.caches_writes() {
            self.writing = self.writing.saturating_sub(1);
        }
    }

    /// Whether a client more that believes this would conflict with one of these.
    fn conflict(self, state: LeaseState) -> bool {
        if state.caches_writes() { self.any > 0 } else { self.writing > 0 && !state.is_none() }
    }

    /// A good client that believed the one believes the other. Whether it conflicts with another client then.
    fn change(&mut self, before: LeaseState, after: LeaseState) -> bool {
        self.leave(before);
        let conflict = self.conflict(after);
        self.enter(after);
        conflict
    }
}

/// The holders of files, by their numbers.
// docs/DECISIONS.md: "A judge counts who may cache a file".
#[derive(Debug)]
pub struct FileHolders {
    seen: Vec<Holders>,
}

impl FileHolders {
    /// Of no file. Allocates nothing.
    pub fn new(alloc: Global) -> FileHolders {
        FileHolders { seen: Vec::new(alloc) }
    }

    fn at(&self, file: usize) -> Holders {
        match self.seen.get(file) {
            Some(holders) => *holders,
            None => Holders::none(),
        }
    }

    /// A client more that is good believes this of files. Whether it conflicts with one of their holders; it is no holder
    /// then.
    ///
    /// # Errors
    ///
    /// `Memory` where there is none left for the holders of files.
    pub fn enter(&mut self, caches: &[CacheSeen]) -> Result<bool, Memory> {
        if self.conflict(caches) {
            return Ok(true);
        }
        reach(&mut self.seen, caches.len())?;
        enter_each(&mut self.seen, caches);
        Ok(false)
    }

    fn conflict(&self, caches: &[CacheSeen]) -> bool {
        for file in 0..caches.len() {
            if self.at(file).conflict(caches[file].belief()) {
                return true;
            }
        }
        false
    }

    /// A client, if it is good, is a holder no more.
    pub fn let_go(&mut self, client: &ClientSeen) {
        if client.is_good() {
            leave_each(&mut self.seen, client.caches());
        }
    }

    /// A good client that believed the one of a file believes the other. Whether it conflicts with another client then.
    ///
    /// # Errors
    ///
    /// `Memory` where there is none left for the holders of files.
    pub fn change(&mut self, file: FileNo, before: LeaseState, after: LeaseState) -> Result<bool, Memory> {
        let file = usize::from(file.0);
        reach(&mut self.seen, file + 1)?;
        let holders = &mut self.seen[file];
        Ok(holders.change(before, after))
    }
}

// Makes places for the holders of so many files.
fn reach(seen: &mut Vec<Holders>, files: usize) -> Result<(), Memory> {
    while seen.len() < files {
        seen.push(Holders::none())?;
    }
    Ok(())
}

fn enter_each(seen: &mut [Holders], caches: &[CacheSeen]) {
    for file in 0..caches.len() {
        seen[file].enter(caches[file].belief());
    }
}

fn leave_each(seen: &mut [Holders], caches: &[CacheSeen]) {
    for file in 0..seen.len().min(caches.len()) {
        seen[file].leave(caches[file].belief());
    }
}
