// Made by tools/plain_rust from crates/lease_manager/src/tables/opens.rt. Changes belong there.

use std::prelude::Vec;

use crate::proved::lease_manager::tables::open_index::OpenIndex;
use crate::proved::lease_manager::tables::summaries::Summaries;
use crate::proved::lease_manager::values::closing::Closing;
use crate::proved::lease_manager::values::kept::KeptOpen;
use crate::proved::lease_manager::values::key::LeaseName;
use crate::proved::lease_manager::values::number::{ClientNo, FileNo};
use crate::proved::lease_manager::values::open::{ListedOpen, OpenEntry};
use crate::proved::lease_manager::values::owner::Owner;
use crate::proved::lease_state::{FileId, Memory};
use std::alloc::Global;
use std::collections::{BTreeMap, BTreeSet};

/// The opens of a manager, by their FileIds.
#[derive(Debug)]
pub struct Opens {
    by_id: BTreeMap<FileId, OpenEntry>,
    index: OpenIndex,
}

impl Opens {
    /// No open. Allocates nothing.
    pub fn new(alloc: Global) -> Opens {
        Opens { by_id: BTreeMap::new(alloc), index: OpenIndex::new(alloc) }
    }

    /// How many there are. They stand in the order of their FileIds, and no two have one.
    pub fn len(&self) -> usize {
        self.by_id.len()
    }

    /// All of them, for a listing, in the order of their FileIds.
    ///
    /// # Errors
    ///
    /// `Memory` where there is none left for the list.
    pub fn listed(&self, alloc: Global) -> Result<Vec<ListedOpen>, Memory> {
        let mut opens = Vec::new(alloc);
        for one in self.by_id.values() {
            opens.push(one.listed())?;
        }
        Ok(opens)
    }

    /// Those that outlive a connection, where these are the leases, as they are kept over a restart, in the order of their
    /// FileIds.
    ///
    /// # Errors
    ///
    /// `Memory` where there is none left for the list.
    pub fn kept(&self, alloc: Global, leases: &Summaries) -> Result<Vec<KeptOpen>, Memory> {
        let mut kept = Vec::new(alloc);
        for one in self.by_id.values() {
            match one.kept(leases.under(one)) {
                Some(open) => kept.push(open)?,
                None => {}
            }
        }
        Ok(kept)
    }

    /// One more open, whose client is there, and whose FileId is above those of all others.
    ///
    /// # Errors
    ///
    /// `Memory` where there is none left; no open is left then.
    pub fn push(&mut self, alloc: Global, one: OpenEntry) -> Result<(), Memory> {
        match file(&mut self.by_id, &mut self.index, alloc, one) {
            Ok(()) => Ok(()),
            Err(memory) => {
                *self = Opens::new(alloc);
                Err(memory)
            }
        }
    }

    /// The open of this FileId.
    pub fn find(&self, fid: FileId) -> Option<&OpenEntry> {
        self.by_id.get(&fid)
    }

    /// Takes the open of this FileId out, if there is one.
    pub fn take(&mut self, fid: FileId) -> Option<OpenEntry> {
        match self.by_id.remove(&fid) {
            Some(one) => {
                self.index.lose(&one);
                Some(one)
            }
            None => None,
        }
    }

    /// The FileIds of the opens that are closed, where these are the leases.
    ///
    /// # Errors
    ///
    /// `Memory` where there is none left for the list.
    pub fn closed(&self, alloc: Global, closing: &Closing, leases: &Summaries) -> Result<Vec<FileId>, Memory> {
        match closing {
            Closing::Named(fid) => self.closed_at(alloc, *fid, closing),
            Closing::LeftBehind(fid) => self.closed_at(alloc, *fid, closing),
            Closing::LeftOf(key) => self.left_of(alloc, *key, leases),
            Closing::Of(key) => self.of_key(alloc, *key),
        }
    }

    // The FileIds of the opens of the key that wait for its client.
    fn left_of(&self, alloc: Global, key: LeaseName, leases: &Summaries) -> Result<Vec<FileId>, Memory> {
        // The invariant, which says what is in the sets, is known of what is looked at.
        let _ = &self.index;
        match leases.home(key) {
            Some(file) => {
                let ids = self.left_on(alloc, key, file)?;
                Ok(ids)
            }
            None => Ok(Vec::new(alloc)),
        }
    }

    // The same, of the opens that its client left on the file.
    fn left_on(&self, alloc: Global, key: LeaseName, file: FileNo) -> Result<Vec<FileId>, Memory> {
        let client = key.client;
        match self.index.left_by(Owner { client, file }) {
            Some(left) => {
                let ids = self.with_key(alloc, key, left)?;
                Ok(ids)
            }
            None => Ok(Vec::new(alloc)),
        }
    }

    // Those of the FileIds whose opens have the key.
    fn with_key(&self, alloc: Global, key: LeaseName, left: &BTreeSet<FileId>) -> Result<Vec<FileId>, Memory> {
        let mut ids = Vec::new(alloc);
        for fid in left {
            if self.is_of_key(*fid, key) {
                ids.push(*fid)?;
            }
        }
        Ok(ids)
    }

    // Whether the open of this FileId has the key.
    fn is_of_key(&self, fid: FileId, key: LeaseName) -> bool {
        match self.find(fid) {
            Some(one) => one.has_key(key),
            None => false,
        }
    }

    // The same, where only the open of this FileId can be closed.
    fn closed_at(&self, alloc: Global, fid: FileId, closing: &Closing) -> Result<Vec<FileId>, Memory> {
        let mut ids = Vec::new(alloc);
        match self.find(fid) {
            Some(one) => {
                if !closing.closes(one) {
                    return Ok(ids);
                }
                ids.push(fid)?;
                Ok(ids)
            }
            None => Ok(ids),
        }
    }

    // The FileIds of the opens of the key.
    fn of_key(&self, alloc: Global, key: LeaseName) -> Result<Vec<FileId>, Memory> {
        self.index.of_key(alloc, key)
    }

    /// The first of the client's opens on the file that wait for it.
    pub fn first_left_by(&self, client: ClientNo, file: FileNo) -> Option<FileId> {
        match self.index.left_by(Owner { client, file }) {
            Some(left) => match left.first() {
                Some(fid) => Some(*fid),
                None => None,
            },
            None => None,
        }
    }

    /// The FileIds of the client's connected opens.
    ///
    /// # Errors
    ///
    /// `Memory` where there is none left for the list.
    pub fn of_client(&self, alloc: Global, client: ClientNo) -> Result<Vec<FileId>, Memory> {
        self.index.of_client(alloc, client)
    }

    /// The files of the client's connected opens, in the order of their FileIds.
    ///
    /// # Errors
    ///
    /// `Memory` where there is none left for the list.
    pub fn files_of_client(&self, alloc: Global, client: ClientNo) -> Result<Vec<FileNo>, Memory> {
        let ids = self.of_client(alloc, client)?;
        let files = self.files_of(alloc, &ids)?;
        Ok(files)
    }

    // The files of the opens of these FileIds.
    fn files_of(&self, alloc: Global, ids: &[FileId]) -> Result<Vec<FileNo>, Memory> {
        let mut files = Vec::new(alloc);
        for fid in ids {
            files.push(self.file_of(*fid))?;
        }
        Ok(files)
    }

    // The file of the open of this FileId; 0 where there is none.
    fn file_of(&self, fid: FileId) -> FileNo {
        match self.find(fid) {
            Some(one) => one.file,
            None => FileNo(0),
        }
    }

    /// Those of the FileIds by which the client has a connected open, each once, in their order.
    ///
    /// # Errors
    ///
    /// `Memory` where there is none left for them.
    pub fn named(&self, alloc: Global, client: ClientNo, file_ids: &[FileId]) -> Result<BTreeSet<FileId>, Memory> {
        // The invariant is known of what is looked at.
        let _ = &self.by_id;
        let mut names = BTreeSet::new(alloc);
        for fid in file_ids {
            if self.is_connected_of(*fid, client) {
                names.insert(*fid)?;
            }
        }
        Ok(names)
    }

    // Whether the open of this FileId is a connected one of the client.
    fn is_connected_of(&self, fid: FileId, client: ClientNo) -> bool {
        match self.find(fid) {
            Some(one) => one.client == client && one.connected,
            None => false,
        }
    }

    /// Those of the FileIds whose opens outlive a connection, where these are the leases, or don't.
    ///
    /// # Errors
    ///
    /// `Memory` where there is none left for the list.
    pub fn lasting(&self, alloc: Global, named: &[FileId], leases: &Summaries, last: bool) -> Result<Vec<FileId>, Memory> {
        // The invariant is known of what is looked at.
        let _ = &self.by_id;
        let mut ids = Vec::new(alloc);
        for fid in named {
            if lasts_so(last, self.outlives(*fid, leases)) {
                ids.push(*fid)?;
            }
        }
        Ok(ids)
    }

    // Whether the open of this FileId outlives its client's connection.
    fn outlives(&self, fid: FileId, leases: &Summaries) -> bool {
        match self.find(fid) {
            Some(one) => one.outlives_connection(leases.under(one)),
            None => false,
        }
    }

    /// The open of this FileId is no longer connected.
    ///
    /// # Errors
    ///
    /// `Memory` where there is none left for it; nothing has changed then.
    pub fn disconnect(&mut self, alloc: Global, fid: FileId) -> Result<(), Memory> {
        match self.by_id.get(&fid) {
            Some(one) => {
                self.index.leave(alloc, one)?;
                set_connected(&mut self.by_id, fid, false);
                Ok(())
            }
            None => Ok(()),
        }
    }

    /// The open of this FileId is connected again.
    ///
    /// # Errors
    ///
    /// `Memory` where there is none left for it; nothing has changed then.
    pub fn connect_again(&mut self, alloc: Global, fid: FileId) -> Result<(), Memory> {
        match self.by_id.get(&fid) {
            Some(one) => {
                self.index.come_back(alloc, one)?;
                set_connected(&mut self.by_id, fid, true);
                Ok(())
            }
            None => Ok(()),
        }
    }
}

// Puts one more open into the map and the index, the last of all.
fn file(by_id: &mut BTreeMap<FileId, OpenEntry>, index: &mut OpenIndex, alloc: Global, one: OpenEntry) -> Result<(), Memory> {
    index.gain(alloc, &one)?;
    by_id.insert(one.file_id, one)?;
    Ok(())
}

// Whether it lasts, or where that is asked, whether it doesn't.
fn lasts_so(last: bool, outlives: bool) -> bool {
    if last { outlives } else { !outlives }
}

// The open of this FileId is connected, or isn't.
fn set_connected(by_id: &mut BTreeMap<FileId, OpenEntry>, fid: FileId, connected: bool) {
    match by_id.get_mut(&fid) {
        Some(one) => one.set_connected(connected),
        None => {}
    }
}
