// Made by tools/plain_rust from crates/machines_c/src/manager/about.rt. Changes belong there.

use std::prelude::Vec;

use crate::proved::machines_c::manager::managing::Managing;
use smblease::proved::lease_manager::{Ask, ClientNo, FileNo, Tag};
use smblease::proved::lease_state::{FileId, LeaseKey, Memory};
use std::alloc::Global;

// Where no change waits, no file is looked for.
impl Managing {
    /// The file of what a request closes, where changes wait; none where the client isn't connected.
    pub(crate) fn file_closed(&self, client: ClientNo, ask: Ask) -> Option<FileNo> {
        match ask {
            Ask::Close { fid } => self.file_if(self.manager.is_connected(client), fid),
            _ => None,
        }
    }

    // The file of the open of this FileId, where changes wait and this is so.
    fn file_if(&self, is_so: bool, fid: FileId) -> Option<FileNo> {
        if self.changes.is_empty() || !is_so {
            return None;
        }
        match self.manager.open(fid) {
            Some(one) => Some(one.file),
            None => None,
        }
    }

    /// The file of the open of this FileId that waits for its client, where changes wait.
    pub(crate) fn file_left(&self, fid: FileId) -> Option<FileNo> {
        self.file_if(self.manager.has_left_behind(fid), fid)
    }

    // The file of the client's lease of this key, where changes wait and this is so.
    fn leased_if(&self, is_so: bool, client: ClientNo, key: LeaseKey) -> Option<FileNo> {
        if self.changes.is_empty() || !is_so {
            return None;
        }
        self.manager.leased_file(client, key)
    }

    /// The file of a lease that its client acknowledges the break of, where changes wait; none where the client isn't connected.
    pub(crate) fn file_acknowledged(&self, client: ClientNo, key: LeaseKey) -> Option<FileNo> {
        self.leased_if(self.manager.is_connected(client), client, key)
    }

    /// The file of a lease that is breaking, where changes wait.
    pub(crate) fn file_breaking(&self, client: ClientNo, key: LeaseKey) -> Option<FileNo> {
        self.leased_if(self.manager.is_breaking(client, key), client, key)
    }

    /// The files of the client's connected opens, where changes wait; none where it isn't connected.
    ///
    /// # Errors
    ///
    /// `Memory` where there is none left for the list, and never where the client isn't connected.
    pub(crate) fn files_opened(&self, alloc: Global, client: ClientNo) -> Result<Vec<FileNo>, Memory> {
        if self.changes.is_empty() || !self.manager.is_connected(client) {
            return Ok(Vec::new(alloc));
        }
        self.manager.opened_files(client)
    }

    /// The file, where changes wait and so does a request of the client there under the tag.
    pub(crate) fn file_waited_on(&self, file: FileNo, client: ClientNo, tag: Tag) -> Option<FileNo> {
        if self.changes.is_empty() || !self.manager.is_waiting(file, client, tag) {
            return None;
        }
        Some(file)
    }
}
