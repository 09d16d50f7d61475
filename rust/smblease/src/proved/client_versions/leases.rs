// Made by tools/plain_rust from crates/client_versions/src/leases.rt. Changes belong there.

use crate::proved::lease_state::{LeaseKey, LeaseState, Memory};
use crate::proved::lease_wire_v2::{LeaseAnswer, SecondVersion};
use std::alloc::Global;
use std::collections::BTreeMap;

/// What is known of a lease (MS-SMB2 3.2.1.5).
#[derive(Clone, Copy, Debug, PartialEq, Eq)]
pub struct Known {
    /// The newest epoch that a message had.
    pub epoch: u16,
    /// The newest state that one had.
    pub state: LeaseState,
}

fn is_newer(before: u16, now: u16) -> bool {
    let ahead = now.wrapping_sub(before);
    0 < ahead && ahead < 0x8000
}

fn is_same(one: LeaseState, other: LeaseState) -> bool {
    one.caches_reads() == other.caches_reads()
        && one.caches_writes() == other.caches_writes()
        && one.caches_handles() == other.caches_handles()
}

fn goes_down(before: LeaseState, now: LeaseState) -> bool {
    now.is_within(before) && !is_same(now, before)
}

impl Known {
    // What the lease context of an answer tells.
    fn told_by(lease: LeaseAnswer, second: SecondVersion) -> Known {
        Known { epoch: second.epoch, state: lease.state }
    }

    /// Whether what a message says is taken.
    pub fn takes(self, told: Known) -> bool {
        is_newer(self.epoch, told.epoch) || (told.epoch == self.epoch && goes_down(self.state, told.state))
    }

    // After a message that tells this.
    fn after(found: Option<Known>, told: Known) -> Known {
        match found {
            Some(known) if !known.takes(told) => known,
            _ => told,
        }
    }

    // After an answer that tells this while a break is in progress.
    fn in_break(found: Option<Known>, told: Known) -> Known {
        match found {
            Some(known) if !is_newer(known.epoch, told.epoch) => known,
            _ => told,
        }
    }
}

// What the lease context of an answer leaves known.
fn known_by(lease: LeaseAnswer, second: SecondVersion, found: Option<Known>) -> Known {
    let told = Known::told_by(lease, second);
    if lease.breaking { Known::in_break(found, told) } else { Known::after(found, told) }
}

// The state of an answer that the machine is given.
fn state_given(lease: LeaseAnswer, found: Option<Known>) -> LeaseState {
    match lease.second {
        Some(second) if !lease.breaking => known_by(lease, second, found).state,
        _ => lease.state,
    }
}

/// The leases by their keys.
#[derive(Debug)]
pub struct Leases {
    by_key: BTreeMap<LeaseKey, Known>,
}

impl Leases {
    /// None. Allocates nothing.
    pub fn new(alloc: Global) -> Leases {
        Leases { by_key: BTreeMap::new(alloc) }
    }

    /// What is known of the lease of this key.
    pub fn known(&self, key: LeaseKey) -> Option<Known> {
        self.by_key.get(&key).copied()
    }

    /// This is known of the lease of this key from now on.
    ///
    /// # Errors
    ///
    /// `Memory` where nothing was known of it, and no memory is left; nothing has changed then.
    pub fn put(&mut self, key: LeaseKey, known: Known) -> Result<(), Memory> {
        self.by_key.insert(key, known)?;
        Ok(())
    }

    /// A create is answered with this lease.
    ///
    /// # Errors
    ///
    /// `Memory` where nothing was known of it, and no memory is left; nothing has changed then.
    pub fn answered(&mut self, lease: Option<LeaseAnswer>) -> Result<(), Memory> {
        let Some(lease) = lease else {
            return Ok(());
        };
        let Some(second) = lease.second else {
            return Ok(());
        };
        let known = known_by(lease, second, self.known(lease.key));
        self.put(lease.key, known)
    }

    /// A create is answered with this lease, after all that was sent before (own).
    ///
    /// # Errors
    ///
    /// `Memory` where nothing was known of it, and no memory is left; nothing has changed then.
    pub fn answered_in_order(&mut self, lease: Option<LeaseAnswer>) -> Result<(), Memory> {
        let Some(lease) = lease else {
            return Ok(());
        };
        let Some(second) = lease.second else {
            return Ok(());
        };
        self.put(lease.key, Known::told_by(lease, second))
    }

    /// The lease that the machine is given for an answer, before that is taken.
    pub fn lease_given(&self, lease: LeaseAnswer) -> (LeaseKey, LeaseState, bool) {
        let state = state_given(lease, self.known(lease.key));
        (lease.key, state, lease.breaking)
    }
}
