// Made by tools/plain_rust from crates/lease_manager/src/tables/files.rt. Changes belong there.

use std::prelude::Vec;

use crate::proved::lease_manager::tables::Tables;
use crate::proved::lease_manager::values::key::LeaseName;
use crate::proved::lease_manager::values::number::{ClientNo, FileNo};
use crate::proved::lease_manager::values::open::ListedOpen;
use crate::proved::lease_state::{FileId, Memory};

impl Tables {
    /// The open of this FileId, for a listing.
    pub fn listed_open(&self, fid: FileId) -> Option<ListedOpen> {
        match self.opens.find(fid) {
            Some(one) => Some(one.listed()),
            None => None,
        }
    }

    /// The file of the key's opens; `None` where no open has the key.
    pub fn file_of_key(&self, key: LeaseName) -> Option<FileNo> {
        if self.summaries.has_lease(key) { self.summaries.home(key) } else { None }
    }

    /// The files of the client's connected opens, in the order of their FileIds.
    ///
    /// # Errors
    ///
    /// `Memory` where there is none left for the list.
    pub fn files_of_client(&self, client: ClientNo) -> Result<Vec<FileNo>, Memory> {
        self.opens.files_of_client(self.alloc(), client)
    }
}
