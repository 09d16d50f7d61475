// Made by tools/plain_rust from crates/lease_manager/src/tables/looks.rt. Changes belong there.

use std::prelude::Vec;

use crate::proved::lease_manager::ended::Ended;
use crate::proved::lease_manager::tables::Tables;
use crate::proved::lease_manager::values::key::LeaseName;
use crate::proved::lease_manager::values::number::{ClientNo, FileNo, Tag};
use crate::proved::lease_manager::values::open::{ListedOpen, OpenEntry};
use crate::proved::lease_manager::values::request::{Held, Lane};
use crate::proved::lease_state::{FileId, LeaseKey, Memory};

impl Tables {
    /// The client's connected open of this FileId.
    pub fn connected_open(&self, client: ClientNo, fid: FileId) -> Option<&OpenEntry> {
        match self.opens.find(fid) {
            Some(one) if one.is_connected_as(client, fid) => Some(one),
            _ => None,
        }
    }

    /// The file of the client's connected open of this FileId.
    pub fn open_file(&self, client: ClientNo, fid: FileId) -> Option<FileNo> {
        match self.connected_open(client, fid) {
            Some(one) => Some(one.file),
            None => None,
        }
    }

    /// The lane of a request of the client by the FileId.
    pub fn lane_of_open(&self, client: ClientNo, fid: FileId) -> Lane {
        match self.connected_open(client, fid) {
            Some(one) => lane_by(fid, one.lease_key),
            None => Lane::Opened(fid),
        }
    }

    /// Whether the key has a lease, and on another file.
    pub fn is_leased_elsewhere(&self, own: Option<LeaseName>, file: FileNo) -> bool {
        match own {
            Some(key) => self.summaries.is_elsewhere(key, file),
            None => false,
        }
    }

    /// Whether a durable open waits for this reconnect.
    pub fn has_awaiting(&self, client: ClientNo, file: FileNo, own: Option<LeaseName>, fid: FileId) -> bool {
        match self.opens.find(fid) {
            Some(one) => one.awaits(client, file, own, fid),
            None => false,
        }
    }

    /// The files where something waits, in the order of their numbers.
    ///
    /// # Errors
    ///
    /// `Memory` where there is none left for the list.
    pub fn waiting_files(&self) -> Result<Vec<FileNo>, Memory> {
        self.queues.waiting_files(self.alloc(), self.files)
    }

    /// Whether a request of the client under the tag waits on the file.
    pub fn waits_under(&self, file: FileNo, client: ClientNo, tag: Tag) -> bool {
        is_any_under(self.held(file), client, tag)
    }

    /// All opens, for a listing.
    ///
    /// # Errors
    ///
    /// `Memory` where there is none left for the list.
    pub fn listed_opens(&self) -> Result<Vec<ListedOpen>, Memory> {
        self.opens.listed(self.alloc())
    }

    /// How many opens there are.
    pub fn open_count(&self) -> usize {
        self.opens.len()
    }

    /// No open ended yet. The opens stand in the order of their FileIds. Allocates nothing.
    pub fn none_ended(&self) -> Ended {
        let _count = self.opens.len();
        Ended::new(self.alloc())
    }

    /// Whether an open has the key.
    pub fn has_lease(&self, key: LeaseName) -> bool {
        self.summaries.has_lease(key)
    }

    /// Whether there is an open of this FileId.
    pub fn has_open(&self, fid: FileId) -> bool {
        match self.opens.find(fid) {
            Some(_) => true,
            None => false,
        }
    }

    /// Whether a disconnected open has this FileId.
    pub fn has_left_behind(&self, fid: FileId) -> bool {
        match self.opens.find(fid) {
            Some(one) => one.is_left_behind(fid),
            None => false,
        }
    }

    /// Whether the timer of the key ran out since its client joined.
    pub fn is_expired(&self, key: LeaseName) -> bool {
        match self.expired.at(key.client) {
            Some(keys) => keys.contains(&key.bytes),
            None => false,
        }
    }

    /// The requests that wait on the file, in order of arrival.
    pub fn held(&self, file: FileNo) -> &[Held] {
        self.queues.at(file)
    }
}

// Whether a request of the client under the tag is among these.
fn is_any_under(held: &[Held], client: ClientNo, tag: Tag) -> bool {
    held.iter().any(|one| one.client == client && one.tag == tag)
}

// The lane of a request by an open of the key.
fn lane_by(fid: FileId, key: Option<LeaseKey>) -> Lane {
    match key {
        Some(key) => Lane::Leased(key),
        None => Lane::Opened(fid),
    }
}
