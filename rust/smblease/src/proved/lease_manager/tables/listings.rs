// Made by tools/plain_rust from crates/lease_manager/src/tables/listings.rt. Changes belong there.

use std::prelude::Vec;

use crate::proved::lease_manager::tables::Tables;
use crate::proved::lease_manager::values::listed::{ListedLease, ListedRequest};
use crate::proved::lease_state::Memory;

impl Tables {
    /// The leases that are there, in order of their keys.
    ///
    /// # Errors
    ///
    /// `Memory` where there is none left for the list.
    pub fn listed_leases(&self) -> Result<Vec<ListedLease>, Memory> {
        self.summaries.listed(self.alloc())
    }

    /// The requests that wait, in order of their files and of arrival.
    ///
    /// # Errors
    ///
    /// `Memory` where there is none left for the list.
    pub fn listed_requests(&self) -> Result<Vec<ListedRequest>, Memory> {
        self.queues.listed(self.alloc())
    }
}
