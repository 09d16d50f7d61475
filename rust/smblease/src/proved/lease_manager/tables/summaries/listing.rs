// Made by tools/plain_rust from crates/lease_manager/src/tables/summaries/listing.rt. Changes belong there.

use std::prelude::Vec;

use crate::proved::lease_manager::tables::summaries::{LeaseRecord, Summaries};
use crate::proved::lease_manager::values::key::LeaseName;
use crate::proved::lease_manager::values::listed::ListedLease;
use crate::proved::lease_state::Memory;
use std::alloc::Global;

impl Summaries {
    /// The leases, for a listing, in order of their keys.
    ///
    /// # Errors
    ///
    /// `Memory` where there is none left for the list.
    pub fn listed(&self, alloc: Global) -> Result<Vec<ListedLease>, Memory> {
        let mut leases = Vec::new(alloc);
        for (key, known) in self.leases.iter() {
            leases.push(listed(*key, known))?;
        }
        Ok(leases)
    }
}

// The lease of a key, as it is listed.
fn listed(key: LeaseName, known: &LeaseRecord) -> ListedLease {
    ListedLease {
        client: key.client,
        key: key.bytes,
        file: known.file,
        state: known.lease.state,
        broken_to: known.lease.broken_to,
        opens: known.tally.opens,
    }
}
