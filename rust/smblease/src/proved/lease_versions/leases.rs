// Made by tools/plain_rust from crates/lease_versions/src/leases.rt. Changes belong there.

use crate::proved::lease_manager::{BreakNotice, ClientNo, LeaseName};
use crate::proved::lease_state::{LeaseKey, LeaseState, Memory};
use crate::proved::lease_wire_v2::SecondVersion;
use std::alloc::Global;
use std::collections::BTreeMap;

/// What is known of a lease.
#[derive(Clone, Copy, Debug, PartialEq, Eq)]
pub struct Lease {
    /// The parent's key, and the epoch; `None` for a lease of version 1.
    pub second: Option<SecondVersion>,
    /// The state that its client knows: that of the last answer or notice.
    pub state: LeaseState,
    /// A break of it isn't acknowledged.
    pub breaking: bool,
    /// How many opens it has.
    pub opens: u64,
}

fn is_same(one: LeaseState, other: LeaseState) -> bool {
    one.caches_reads() == other.caches_reads()
        && one.caches_writes() == other.caches_writes()
        && one.caches_handles() == other.caches_handles()
}

// The epoch rises.
fn raised(second: Option<SecondVersion>) -> Option<SecondVersion> {
    match second {
        Some(SecondVersion { parent, epoch }) => {
            let epoch = epoch.wrapping_add(1);
            Some(SecondVersion { parent, epoch })
        }
        None => None,
    }
}

impl Lease {
    /// Of a key that has none, with one open.
    pub fn new(asked: Option<SecondVersion>, given: (LeaseKey, LeaseState, bool)) -> Lease {
        Lease { second: raised(asked), state: given.1, breaking: given.2, opens: 1 }
    }

    /// After an answer with this state.
    pub fn granted(self, state: LeaseState) -> Lease {
        if self.breaking || is_same(state, self.state) {
            return self;
        }
        Lease { second: raised(self.second), state, ..self }
    }

    /// After an answer to a create: with one open more, unless that is known.
    ///
    /// # Errors
    ///
    /// `Memory` where there are 2^64 - 1 opens.
    pub fn with_open(self, known: bool) -> Result<Lease, Memory> {
        if known {
            return Ok(self);
        }
        match self.opens.checked_add(1) {
            Some(opens) => Ok(Lease { opens, ..self }),
            None => Err(Memory),
        }
    }

    /// After the notice of a break.
    pub fn broken(self, notice: &BreakNotice) -> Lease {
        let state = if notice.ack_required { self.state } else { notice.lowered };
        Lease { second: raised(self.second), state, breaking: self.breaking || notice.ack_required, opens: self.opens }
    }

    /// After an acknowledgment that is answered with this state.
    pub fn acknowledged(self, state: LeaseState) -> Lease {
        Lease { state, breaking: false, ..self }
    }

    /// With one open less, if it has another.
    pub fn without_open(self) -> Option<Lease> {
        if self.opens <= 1 {
            return None;
        }
        Some(Lease { opens: self.opens - 1, ..self })
    }

    /// The NewEpoch of a notice.
    pub fn epoch(self) -> u16 {
        match self.second {
            Some(second) => second.epoch,
            None => 0,
        }
    }
}

// The lease of a create that is answered with this one, by an open that is known or isn't, where its key had that lease.
fn lease_given(
    asked: Option<SecondVersion>,
    given: (LeaseKey, LeaseState, bool),
    known: bool,
    found: Option<Lease>,
) -> Result<Lease, Memory> {
    match found {
        Some(lease) => lease.granted(given.1).with_open(known),
        None => Ok(Lease::new(asked, given)),
    }
}

/// The leases by what names them.
#[derive(Debug)]
pub struct Leases {
    by_name: BTreeMap<LeaseName, Lease>,
}

impl Leases {
    /// None. Allocates nothing.
    pub fn new(alloc: Global) -> Leases {
        Leases { by_name: BTreeMap::new(alloc) }
    }

    /// The lease of this name.
    pub fn lease(&self, name: LeaseName) -> Option<Lease> {
        self.by_name.get(&name).copied()
    }

    /// The lease of this name is so from now on.
    ///
    /// # Errors
    ///
    /// `Memory` where there was none, and no memory is left; nothing has changed then.
    pub fn put(&mut self, name: LeaseName, lease: Lease) -> Result<(), Memory> {
        self.by_name.insert(name, lease)?;
        Ok(())
    }

    /// The lease of this name is so from now on, if there is one.
    pub fn set(&mut self, name: LeaseName, lease: Lease) {
        if let Some(known) = self.by_name.get_mut(&name) {
            *known = lease;
        }
    }

    /// There is no lease of this name any longer.
    pub fn remove(&mut self, name: LeaseName) {
        self.by_name.remove(&name);
    }

    /// A create is answered with this lease, by an open that is known or isn't: what version 2 adds to the answer.
    ///
    /// # Errors
    ///
    /// `Memory` where there is none left, or a lease has 2^64 - 1 opens; nothing has changed then.
    pub fn give(
        &mut self,
        client: ClientNo,
        given: Option<(LeaseKey, LeaseState, bool)>,
        asked: Option<SecondVersion>,
        known: bool,
    ) -> Result<Option<SecondVersion>, Memory> {
        let Some((key, state, breaking)) = given else {
            return Ok(None);
        };
        let name = LeaseName { client, bytes: key };
        let lease = lease_given(asked, (key, state, breaking), known, self.lease(name))?;
        self.put(name, lease)?;
        Ok(lease.second)
    }

    /// An open of this key leaves, the last one with its lease.
    pub fn leave(&mut self, client: ClientNo, key: Option<LeaseKey>) {
        let Some(bytes) = key else {
            return;
        };
        let name = LeaseName { client, bytes };
        let left = match self.lease(name) {
            Some(lease) => lease.without_open(),
            None => None,
        };
        match left {
            Some(lease) => self.set(name, lease),
            None => self.remove(name),
        }
    }
}
