// Made by tools/plain_rust from crates/lease_manager/src/tables/summaries.rt. Changes belong there.

use std::prelude::Vec;

use crate::proved::lease_manager::tables::file_summary::FileSummary;
use crate::proved::lease_manager::tables::lease_marks::LeaseMarks;
use crate::proved::lease_manager::tables::tally::Tally;
use crate::proved::lease_manager::values::key::LeaseName;
use crate::proved::lease_manager::values::lease::HeldLease;
use crate::proved::lease_manager::values::number::FileNo;
use crate::proved::lease_manager::values::open::OpenEntry;
use crate::proved::lease_manager::values::want::Demand;
use crate::proved::lease_state::{Access, Memory, Share};
use std::alloc::Global;
use std::collections::{BTreeMap, BTreeSet};

mod listing;

/// What a manager keeps of a lease: its file, the lease itself, and counts of its opens.
#[derive(Clone, Copy, Debug)]
pub struct LeaseRecord {
    pub file: FileNo,
    pub lease: HeldLease,
    pub tally: Tally,
}

/// Lease records and file summaries, and no open. What may be granted, whether opens conflict and
/// which leases are wanted is answered from these alone.
#[derive(Debug)]
pub struct Summaries {
    /// A record for each key that an open has.
    leases: BTreeMap<LeaseName, LeaseRecord>,
    /// A summary for each file that an open is on.
    files: BTreeMap<FileNo, FileSummary>,
}

impl Summaries {
    /// Where there is no open. Allocates nothing.
    pub fn new(alloc: Global) -> Summaries {
        Summaries { leases: BTreeMap::new(alloc), files: BTreeMap::new(alloc) }
    }

    // The summary of the file, with one open more.
    fn gain_on_file(&mut self, alloc: Global, one: &OpenEntry, marks: LeaseMarks) -> Result<(), Memory> {
        match self.files.get_mut(&one.file) {
            Some(summary) => {
                summary.gain(one, marks)?;
                Ok(())
            }
            None => {
                let mut summary = FileSummary::new(alloc);
                summary.gain(one, marks)?;
                self.files.insert(one.file, summary)?;
                Ok(())
            }
        }
    }

    // The counts of the opens that have the key.
    fn tally(&self, key: LeaseName) -> Tally {
        match self.leases.get(&key) {
            Some(known) => known.tally,
            None => Tally::none(),
        }
    }

    // The record of the key, with one open more, and with this lease.
    fn gain_record(&mut self, key: LeaseName, one: &OpenEntry, lease: HeldLease) -> Result<(), Memory> {
        let known = LeaseRecord { file: one.file, lease, tally: self.tally(key).raised(one) };
        self.leases.insert(key, known)?;
        Ok(())
    }

    // The record of the key, with one open less: whether it had no other.
    fn lose_record(&mut self, key: LeaseName, one: &OpenEntry) -> bool {
        match self.leases.get_mut(&key) {
            Some(known) => {
                known.tally = known.tally.lowered(one);
                if !known.tally.is_empty() {
                    return false;
                }
                self.leases.remove(&key);
                true
            }
            None => true,
        }
    }

    // The summary of the file, with one open less, the last of its key or not.
    fn lose_on_file(&mut self, one: &OpenEntry, last: bool) {
        match self.files.get_mut(&one.file) {
            Some(summary) => {
                summary.lose(one, last);
                if summary.tally.is_empty() {
                    self.files.remove(&one.file);
                }
            }
            None => {}
        }
    }

    /// One open less, of a list that these agree with.
    pub fn lose(&mut self, one: &OpenEntry) {
        match one.key() {
            Some(key) => {
                let last = self.lose_record(key, one);
                self.lose_on_file(one, last);
            }
            None => self.lose_on_file(one, false),
        }
    }

    /// One open more, which a key has nowhere else than on its file, and whose lease becomes this one.
    ///
    /// # Errors
    ///
    /// `Memory` where there is none left for its record or its file's summary.
    pub fn gain(&mut self, alloc: Global, one: &OpenEntry, lease: HeldLease) -> Result<(), Memory> {
        let marks = LeaseMarks::of(lease);
        match one.key() {
            Some(key) => {
                self.gain_record(key, one, lease)?;
                self.gain_on_file(alloc, one, marks)?;
                Ok(())
            }
            None => {
                self.gain_on_file(alloc, one, marks)?;
                Ok(())
            }
        }
    }

    // The summary of the file, where this is marked of the lease of a key.
    fn mark_on_file(&mut self, file: FileNo, key: LeaseName, marks: LeaseMarks) -> Result<(), Memory> {
        match self.files.get_mut(&file) {
            Some(summary) => {
                summary.mark(key, marks)?;
                Ok(())
            }
            None => Ok(()),
        }
    }

    /// The lease of a key that an open has becomes this one.
    ///
    /// # Errors
    ///
    /// `Memory` where there is none left for the file's summary.
    pub fn put(&mut self, key: LeaseName, lease: HeldLease) -> Result<(), Memory> {
        match self.leases.get_mut(&key) {
            Some(known) => {
                let marked = LeaseMarks::of(known.lease);
                let marks = LeaseMarks::of(lease);
                let file = known.file;
                known.lease = lease;
                if marks != marked {
                    self.mark_on_file(file, key, marks)?;
                }
                Ok(())
            }
            None => Ok(()),
        }
    }

    /// The lease of a key; none where no open has it.
    pub fn lease(&self, key: LeaseName) -> HeldLease {
        match self.leases.get(&key) {
            Some(known) => known.lease,
            None => HeldLease::none(),
        }
    }

    /// The lease under which an open stands.
    pub fn under(&self, one: &OpenEntry) -> HeldLease {
        match one.key() {
            Some(key) => self.lease(key),
            None => HeldLease::none(),
        }
    }

    /// Whether an open has the key.
    pub fn has_lease(&self, key: LeaseName) -> bool {
        self.leases.contains_key(&key)
    }

    /// The file of the key's opens; `None` where no open has the key.
    pub fn home(&self, key: LeaseName) -> Option<FileNo> {
        match self.leases.get(&key) {
            Some(known) => Some(known.file),
            None => None,
        }
    }

    /// Whether an open of the key is on another file.
    pub fn is_elsewhere(&self, key: LeaseName, file: FileNo) -> bool {
        match self.leases.get(&key) {
            Some(known) => known.file != file,
            None => false,
        }
    }

    /// Whether an open on the file conflicts with this access and share.
    pub fn has_conflict_on(&self, file: FileNo, access: Access, share: Share) -> bool {
        match self.files.get(&file) {
            Some(summary) => summary.tally.conflicts(access, share),
            None => false,
        }
    }

    /// Whether an open on the file has another key than the request. An open without a key counts
    /// as a key of its own (profile).
    pub fn has_other_on(&self, own: Option<LeaseName>, file: FileNo) -> bool {
        match self.files.get(&file) {
            Some(summary) => summary.has_other(own),
            None => false,
        }
    }

    /// Whether the lease of another key on the file hinders a write under this key, or under none.
    pub fn is_hindered(&self, own: Option<LeaseName>, file: FileNo) -> bool {
        match self.files.get(&file) {
            Some(summary) => summary.is_hindered(own),
            None => false,
        }
    }

    /// Whether each lease of another key on the file that holds `HANDLE_CACHING` is breaking.
    pub fn are_handlers_breaking(&self, own: Option<LeaseName>, file: FileNo) -> bool {
        match self.files.get(&file) {
            Some(summary) => summary.are_handlers_breaking(own),
            None => true,
        }
    }

    /// The keys whose leases are wanted, in the order in which these are broken.
    ///
    /// # Errors
    ///
    /// `Memory` where there is none left for the list.
    pub fn wanted_keys(&self, alloc: Global, demand: &Demand) -> Result<Vec<LeaseName>, Memory> {
        match self.files.get(&demand.file) {
            Some(summary) => {
                let keys = summary.keys_for(demand.wish);
                let wanted = self.wanted_among(alloc, keys, demand)?;
                Ok(wanted)
            }
            None => Ok(Vec::new(alloc)),
        }
    }

    /// Whether the lease of any key is wanted.
    pub fn is_any_wanted(&self, demand: &Demand) -> bool {
        match self.files.get(&demand.file) {
            Some(summary) => self.is_one_wanted(summary.keys_for(demand.wish), demand),
            None => false,
        }
    }

    // Whether the lease of one of the keys is.
    fn is_one_wanted(&self, keys: &BTreeSet<LeaseName>, demand: &Demand) -> bool {
        keys.iter().any(|key| self.is_wanted(*key, demand))
    }

    // Those of the keys whose leases are wanted.
    fn wanted_among(&self, alloc: Global, keys: &BTreeSet<LeaseName>, demand: &Demand) -> Result<Vec<LeaseName>, Memory> {
        let mut wanted = Vec::new(alloc);
        for key in keys {
            if self.is_wanted(*key, demand) {
                wanted.push(*key)?;
            }
        }
        Ok(wanted)
    }

    // Whether the lease of a key on the file is wanted: it is another one than the request's, and
    // holds what the request wishes to be given up.
    fn is_wanted(&self, key: LeaseName, demand: &Demand) -> bool {
        if is_own(demand.own, key) {
            return false;
        }
        match self.leases.get(&key) {
            Some(known) => demand.wish.needs(known),
            None => false,
        }
    }
}

// Whether the request has this key.
fn is_own(own: Option<LeaseName>, key: LeaseName) -> bool {
    match own {
        Some(other) => key.is(other),
        None => false,
    }
}
