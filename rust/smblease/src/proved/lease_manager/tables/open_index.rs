// Made by tools/plain_rust from crates/lease_manager/src/tables/open_index.rt. Changes belong there.

use std::prelude::Vec;

use crate::proved::lease_manager::tables::multimap::Multimap;
use crate::proved::lease_manager::tables::sets::Sets;
use crate::proved::lease_manager::values::key::LeaseName;
use crate::proved::lease_manager::values::number::ClientNo;
use crate::proved::lease_manager::values::open::OpenEntry;
use crate::proved::lease_manager::values::owner::Owner;
use crate::proved::lease_state::{FileId, Memory};
use std::alloc::Global;
use std::collections::BTreeSet;

/// The FileIds of opens, as their manager asks for them.
// docs/DECISIONS.md: "Opens that wait for their clients".
#[derive(Debug)]
pub struct OpenIndex {
    /// The opens whose clients are there, by client.
    connected: Sets<ClientNo, FileId>,
    /// The opens that wait for their clients (MS-SMB2 3.3.7.1), by client and file.
    left: Sets<Owner, FileId>,
    /// The opens that have a lease, by its key.
    leased: Multimap<LeaseName, FileId>,
}

impl OpenIndex {
    /// Of no opens. Allocates nothing.
    pub fn new(alloc: Global) -> OpenIndex {
        OpenIndex { connected: Sets::new(alloc), left: Sets::new(alloc), leased: Multimap::new(alloc) }
    }

    /// The client's connected opens, rising.
    ///
    /// # Errors
    ///
    /// `Memory` where there is none left for the list.
    pub fn of_client(&self, alloc: Global, client: ClientNo) -> Result<Vec<FileId>, Memory> {
        self.connected.listed(alloc, client)
    }

    /// The opens of the key, rising.
    ///
    /// # Errors
    ///
    /// `Memory` where there is none left for the list.
    pub fn of_key(&self, alloc: Global, key: LeaseName) -> Result<Vec<FileId>, Memory> {
        self.leased.listed(alloc, key)
    }

    /// The opens of the client on the file that wait for it, if any do.
    pub fn left_by(&self, owner: Owner) -> Option<&BTreeSet<FileId>> {
        self.left.at(owner)
    }

    /// One more open, whose client is there, and whose FileId is above those of all others.
    ///
    /// # Errors
    ///
    /// `Memory` where there is none left for it; the index is good for nothing then.
    pub fn gain(&mut self, alloc: Global, one: &OpenEntry) -> Result<(), Memory> {
        self.connected.insert(alloc, one.client, one.file_id)?;
        gain_key(&mut self.leased, alloc, one)
    }

    /// An open goes.
    pub fn lose(&mut self, one: &OpenEntry) {
        self.connected.remove(one.client, one.file_id);
        self.left.remove(one.owner(), one.file_id);
        lose_key(&mut self.leased, one);
    }

    /// An open waits for its client from now on.
    ///
    /// # Errors
    ///
    /// `Memory` where there is none left for it; nothing has changed then.
    pub fn leave(&mut self, alloc: Global, one: &OpenEntry) -> Result<(), Memory> {
        self.left.insert(alloc, one.owner(), one.file_id)?;
        self.connected.remove(one.client, one.file_id);
        Ok(())
    }

    /// The client of an open is there again.
    ///
    /// # Errors
    ///
    /// `Memory` where there is none left for it; nothing has changed then.
    pub fn come_back(&mut self, alloc: Global, one: &OpenEntry) -> Result<(), Memory> {
        self.connected.insert(alloc, one.client, one.file_id)?;
        self.left.remove(one.owner(), one.file_id);
        Ok(())
    }
}

// One more open is listed under its key, if it has one.
fn gain_key(leased: &mut Multimap<LeaseName, FileId>, alloc: Global, one: &OpenEntry) -> Result<(), Memory> {
    match one.key() {
        Some(key) => leased.insert(alloc, key, one.file_id),
        None => Ok(()),
    }
}

// An open is no longer listed under its key.
fn lose_key(leased: &mut Multimap<LeaseName, FileId>, one: &OpenEntry) {
    match one.key() {
        Some(key) => leased.remove(key, one.file_id),
        None => {}
    }
}
