// Made by tools/plain_rust from crates/lease_manager/src/tables/wants.rt. Changes belong there.

use std::prelude::Vec;

use crate::proved::lease_manager::tables::Tables;
use crate::proved::lease_manager::values::extent::Extent;
use crate::proved::lease_manager::values::key::LeaseName;
use crate::proved::lease_manager::values::number::FileNo;
use crate::proved::lease_manager::values::want::{Demand, Want, Wish};
use crate::proved::lease_state::Memory;

impl Tables {
    /// What a request wishes of the leases of other keys on its file, in the order in which they are
    /// broken.
    ///
    /// # Errors
    ///
    /// `Memory` where there is none left for the list.
    pub fn wants(&self, wish: Wish, own: Option<LeaseName>, file: FileNo) -> Result<Vec<Want>, Memory> {
        let keys = self.summaries.wanted_keys(self.alloc(), &Demand { wish, own, file })?;
        let wants = self.wants_of(wish, &keys)?;
        Ok(wants)
    }

    /// Whether the lease of another key on the file hinders a write under this key, or under none: it
    /// holds something, and is not breaking to nothing yet.
    pub fn is_hindered(&self, own: Option<LeaseName>, file: FileNo) -> bool {
        self.summaries.is_hindered(own, file)
    }

    /// Whether the lease of another key on the file holds what this wishes to be given up.
    pub fn is_any_wanted(&self, wish: Wish, own: Option<LeaseName>, file: FileNo) -> bool {
        self.summaries.is_any_wanted(&Demand { wish, own, file })
    }

    /// Whether no other key on the file is in the way of what this is to be given up for.
    pub fn is_given_up(&self, own: Option<LeaseName>, file: FileNo, extent: Extent) -> bool {
        match extent {
            Extent::Handles => !self.is_any_wanted(Wish::AnyHandles, own, file),
            Extent::All => self.is_all_given_up(own, file),
        }
    }

    // Whether no other key on the file is in the way of a change.
    fn is_all_given_up(&self, own: Option<LeaseName>, file: FileNo) -> bool {
        // Each call is given a copy of its own, for the borrow checker.
        let key = own;
        if self.is_hindered(own, file) {
            return false;
        }
        self.is_read_only(key, file)
    }

    // Whether no other key on the file caches writes.
    fn is_read_only(&self, own: Option<LeaseName>, file: FileNo) -> bool {
        !self.is_any_wanted(Wish::NoWrites, own, file)
    }

    // The wants of these keys.
    fn wants_of(&self, wish: Wish, keys: &[LeaseName]) -> Result<Vec<Want>, Memory> {
        let mut wants = Vec::new(self.alloc());
        for key in keys {
            let lowered = wish.lowered(self.lease(*key).state);
            wants.push(Want { key: *key, lowered })?;
        }
        Ok(wants)
    }
}
