// Made by tools/plain_rust from crates/lease_manager/src/manager/listings.rt. Changes belong there.

use std::prelude::Vec;

use crate::proved::lease_manager::manager::Manager;
use crate::proved::lease_manager::values::listed::{ListedLease, ListedRequest};
use crate::proved::lease_state::Memory;

impl Manager {
    /// The leases that are there (MS-SMB2 3.3.1.12), each once, in order of their clients' numbers, then of their keys' bytes,
    /// with what they hold, what they are broken to, their file and how many opens they have: what a host lists of itself.
    ///
    /// # Errors
    ///
    /// `Memory` where there is none left for the list.
    pub fn leases(&self) -> Result<Vec<ListedLease>, Memory> {
        self.tables.listed_leases()
    }

    /// The requests that wait (MS-SMB2 3.3.4.2), in order of their files' numbers, and on each file in order of arrival, with
    /// their clients, their tags and what they ask.
    ///
    /// # Errors
    ///
    /// `Memory` where there is none left for the list.
    pub fn waiting(&self) -> Result<Vec<ListedRequest>, Memory> {
        self.tables.listed_requests()
    }
}
