// Made by tools/plain_rust from crates/machines_c/src/manager/listed.rt. Changes belong there.

use std::prelude::Vec;

use crate::proved::machines_c::handles::Outcome;
use crate::proved::machines_c::manager::handle::ManagerHandle;
use crate::proved::machines_c::manager::managing::Managing;
use smblease::proved::lease_manager::{ListedLease, ListedOpen, ListedRequest};
use smblease::proved::lease_state::Memory;
use std::alloc::Global;

/// What was listed of a manager since its last call.
#[derive(Debug)]
pub struct Listed {
    pub opens: Vec<ListedOpen>,
    pub leases: Vec<ListedLease>,
    pub requests: Vec<ListedRequest>,
}

/// What may be listed.
#[derive(Clone, Copy, Debug, PartialEq, Eq)]
pub enum Listing {
    Opens,
    Leases,
    Requests,
}

impl Listed {
    /// Nothing is listed. Allocates nothing.
    pub fn nothing(alloc: Global) -> Listed {
        Listed { opens: Vec::new(alloc), leases: Vec::new(alloc), requests: Vec::new(alloc) }
    }
}

impl Managing {
    // Lists these.
    fn list(&mut self, listing: Listing) -> Result<(), Memory> {
        match listing {
            Listing::Opens => self.listed.opens = self.manager.opens()?,
            Listing::Leases => self.listed.leases = self.manager.leases()?,
            Listing::Requests => self.listed.requests = self.manager.waiting()?,
        }
        Ok(())
    }
}

impl ManagerHandle {
    /// Lists these as they stand. Where there is no memory for the list, nothing changed.
    pub(crate) fn list(&mut self, alloc: Global, listing: Listing) -> Outcome {
        match self.take(alloc) {
            None => Outcome::Nothing,
            Some(mut managing) => {
                let outcome = match managing.list(listing) {
                    Ok(()) => Outcome::Done,
                    Err(_) => Outcome::NoMemory,
                };
                self.put(alloc, managing);
                outcome
            }
        }
    }
}
