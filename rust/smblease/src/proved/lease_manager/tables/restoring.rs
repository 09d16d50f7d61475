// Made by tools/plain_rust from crates/lease_manager/src/tables/restoring.rt. Changes belong there.

use std::prelude::Vec;

use crate::proved::lease_manager::tables::Tables;
use crate::proved::lease_manager::values::kept::KeptOpen;
use crate::proved::lease_manager::values::restore_error::RestoreError;
use crate::proved::lease_manager::values::want::Wish;
use crate::proved::lease_state::{FileId, LeaseState, Memory};

impl Tables {
    /// The opens that would be there were each client cut now, in the order of their FileIds, with what their leases hold.
    ///
    /// # Errors
    ///
    /// `Memory` where there is none left for the list.
    pub fn kept_opens(&self) -> Result<Vec<KeptOpen>, Memory> {
        self.opens.kept(self.alloc(), &self.summaries)
    }

    /// One open more, which waits for its client, where it breaks no law and its FileId isn't after this one. No lease is
    /// breaking.
    ///
    /// # Errors
    ///
    /// `Unlawful` where it would break one. `Memory` where there is none left.
    pub fn restore(&mut self, last: FileId, one: KeptOpen) -> Result<(), RestoreError> {
        if !self.may_keep(last, one) {
            return Err(RestoreError::Unlawful);
        }
        self.keep(one)?;
        Ok(())
    }

    // One open more, which waits for its client.
    fn keep(&mut self, one: KeptOpen) -> Result<(), Memory> {
        self.open(one.entry(), one.lease())?;
        self.disconnect(one.file_id)
    }

    // Whether one open more breaks no law, where this FileId is the last.
    fn may_keep(&self, last: FileId, one: KeptOpen) -> bool {
        self.has_next_id(last, one)
            && self.has_file(one.file)
            && is_lasting_state(one.state)
            && self.has_room_for(one)
            && self.holds_the_same(one)
            && self.writes_alone(one)
    }

    // Whether its FileId comes after those that were given, and not after this one.
    fn has_next_id(&self, last: FileId, one: KeptOpen) -> bool {
        self.last_id() < one.file_id.0 && one.file_id.0 <= last.0
    }

    // Whether its key is on no other file, and no open on its file conflicts with it.
    fn has_room_for(&self, one: KeptOpen) -> bool {
        !self.is_leased_elsewhere(Some(one.name()), one.file) && !self.has_conflict_on(one.file, one.access, one.share)
    }

    // Whether the lease of its key, where there is one, holds the same.
    fn holds_the_same(&self, one: KeptOpen) -> bool {
        let state = self.lease(one.name()).state;
        !self.has_lease(one.name()) || (state.is_within(one.state) && one.state.is_within(state))
    }

    // Whether no other key is on its file where it caches writes, and no other key there does.
    fn writes_alone(&self, one: KeptOpen) -> bool {
        if self.is_any_wanted(Wish::NoWrites, Some(one.name()), one.file) {
            return false;
        }
        !(one.state.caches_writes() && self.has_other_on(Some(one.name()), one.file))
    }
}

// Whether the state is a granted form that caches handles.
fn is_lasting_state(state: LeaseState) -> bool {
    state.caches_reads() && state.caches_handles()
}
