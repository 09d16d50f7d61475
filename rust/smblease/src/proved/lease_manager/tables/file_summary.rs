// Made by tools/plain_rust from crates/lease_manager/src/tables/file_summary.rt. Changes belong there.

use crate::proved::lease_manager::tables::lease_marks::LeaseMarks;
use crate::proved::lease_manager::tables::tally::Tally;
use crate::proved::lease_manager::values::key::LeaseName;
use crate::proved::lease_manager::values::open::OpenEntry;
use crate::proved::lease_manager::values::want::Wish;
use crate::proved::lease_state::Memory;
use std::alloc::Global;
use std::collections::BTreeSet;

/// What a manager keeps of a file that is open: counts of the opens on it, and their keys. An open
/// without a key counts as a key of its own (profile).
// docs/DECISIONS.md: "Counts and sets of a file's summary".
#[derive(Debug)]
pub struct FileSummary {
    pub tally: Tally,
    /// The keys of the opens, in the order in which their leases are broken.
    pub keys: BTreeSet<LeaseName>,
    /// How many opens have no key.
    pub keyless: u64,
    /// Those of the keys whose leases hold `WRITE_CACHING`: one at most, by the laws of servers.
    pub writers: BTreeSet<LeaseName>,
    /// Those of the keys whose leases hold `HANDLE_CACHING`.
    pub handlers: BTreeSet<LeaseName>,
    /// Those of these whose leases are breaking.
    pub breaking: BTreeSet<LeaseName>,
    /// Those of the keys whose leases hinder no write under another key: they hold nothing, or are
    /// breaking to nothing. Few do, so these are kept, and not the others.
    pub harmless: BTreeSet<LeaseName>,
}

impl FileSummary {
    /// Of a file without an open.
    pub fn new(alloc: Global) -> FileSummary {
        FileSummary {
            tally: Tally::none(),
            keys: BTreeSet::new(alloc),
            keyless: 0,
            writers: BTreeSet::new(alloc),
            handlers: BTreeSet::new(alloc),
            breaking: BTreeSet::new(alloc),
            harmless: BTreeSet::new(alloc),
        }
    }

    /// One more open, of whose lease this is marked.
    ///
    /// # Errors
    ///
    /// `Memory` where there is none left for the keys.
    pub fn gain(&mut self, one: &OpenEntry, marks: LeaseMarks) -> Result<(), Memory> {
        self.tally = self.tally.raised(one);
        match one.key() {
            Some(key) => {
                self.gain_key(key, marks)?;
                Ok(())
            }
            None => {
                self.keyless = self.keyless.saturating_add(1);
                Ok(())
            }
        }
    }

    // The key has an open.
    fn gain_key(&mut self, key: LeaseName, marks: LeaseMarks) -> Result<(), Memory> {
        self.keys.insert(key)?;
        self.mark(key, marks)?;
        Ok(())
    }

    /// One open less, the last of its key or not.
    pub fn lose(&mut self, one: &OpenEntry, last: bool) {
        self.tally = self.tally.lowered(one);
        match one.key() {
            Some(key) => self.lose_key(key, last),
            None => self.keyless = self.keyless.saturating_sub(1),
        }
    }

    // The key has an open less, its last or not.
    fn lose_key(&mut self, key: LeaseName, last: bool) {
        if last {
            self.keys.remove(&key);
            self.writers.remove(&key);
            self.handlers.remove(&key);
            self.breaking.remove(&key);
            self.harmless.remove(&key);
        }
    }

    /// This is marked of the lease of the key.
    ///
    /// # Errors
    ///
    /// `Memory` where there is none left for the keys.
    pub fn mark(&mut self, key: LeaseName, marks: LeaseMarks) -> Result<(), Memory> {
        set_member(&mut self.writers, key, marks.writes)?;
        set_member(&mut self.handlers, key, marks.handles)?;
        set_member(&mut self.breaking, key, marks.breaks)?;
        set_member(&mut self.harmless, key, marks.harmless)?;
        Ok(())
    }

    /// Whether an open on the file has another key than the request.
    pub fn has_other(&self, own: Option<LeaseName>) -> bool {
        self.keyless > 0 || self.keys.len() > self.own_count(own)
    }

    // How many of the keys are the request's.
    fn own_count(&self, own: Option<LeaseName>) -> usize {
        match own {
            Some(key) => {
                if self.keys.contains(&key) {
                    1
                } else {
                    0
                }
            }
            None => 0,
        }
    }

    /// Whether the lease of another key than the request's hinders writes.
    // docs/DECISIONS.md: "The leases that hinder no write are a set".
    pub fn is_hindered(&self, own: Option<LeaseName>) -> bool {
        let hindering = self.keys.len().saturating_sub(self.harmless.len());
        hindering > self.own_hindering(own)
    }

    // How many of the keys whose leases hinder writes are the request's.
    fn own_hindering(&self, own: Option<LeaseName>) -> usize {
        match own {
            Some(key) => {
                if self.is_hindering(key) {
                    1
                } else {
                    0
                }
            }
            None => 0,
        }
    }

    // Whether the key is on the file, and its lease hinders writes.
    fn is_hindering(&self, key: LeaseName) -> bool {
        self.keys.contains(&key) && !self.harmless.contains(&key)
    }

    /// Whether each of the leases of other keys than the request's that hold `HANDLE_CACHING` is breaking.
    pub fn are_handlers_breaking(&self, own: Option<LeaseName>) -> bool {
        let unbroken = self.handlers.len().saturating_sub(self.breaking.len());
        unbroken <= own_remaining(own, &self.handlers, &self.breaking)
    }

    /// The keys among which are all whose leases can be wanted.
    pub fn keys_for(&self, wish: Wish) -> &BTreeSet<LeaseName> {
        match wish {
            Wish::NoWrites => &self.writers,
            Wish::NoHandles { .. } | Wish::AnyHandles => &self.handlers,
            Wish::Nothing => &self.keys,
        }
    }
}

// How many of the keys that aren't marked are the request's.
fn own_remaining(own: Option<LeaseName>, keys: &BTreeSet<LeaseName>, marked: &BTreeSet<LeaseName>) -> usize {
    match own {
        Some(key) => {
            if remains(keys, marked, key) {
                1
            } else {
                0
            }
        }
        None => 0,
    }
}

fn remains(keys: &BTreeSet<LeaseName>, marked: &BTreeSet<LeaseName>, key: LeaseName) -> bool {
    keys.contains(&key) && !marked.contains(&key)
}

// The key is one of the keys, or isn't.
fn set_member(keys: &mut BTreeSet<LeaseName>, key: LeaseName, is_one: bool) -> Result<(), Memory> {
    if is_one {
        keys.insert(key)?;
    } else {
        keys.remove(&key);
    }
    Ok(())
}
