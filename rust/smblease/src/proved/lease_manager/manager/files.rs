// Made by tools/plain_rust from crates/lease_manager/src/manager/files.rt. Changes belong there.

use std::prelude::Vec;

use crate::proved::lease_manager::manager::Manager;
use crate::proved::lease_manager::values::key::LeaseName;
use crate::proved::lease_manager::values::number::{ClientNo, FileNo};
use crate::proved::lease_manager::values::open::ListedOpen;
use crate::proved::lease_state::{FileId, LeaseKey, Memory};

impl Manager {
    /// The open of this FileId, connected or not (MS-SMB2 3.3.1.10); `None` where there is none.
    pub fn open(&self, fid: FileId) -> Option<ListedOpen> {
        self.tables.listed_open(fid)
    }

    /// The file that the client's key has a lease on (MS-SMB2 3.3.1.12); `None` where no open has the key.
    pub fn leased_file(&self, client: ClientNo, key: LeaseKey) -> Option<FileNo> {
        self.tables.file_of_key(LeaseName { client, bytes: key })
    }

    /// The file of each connected open of the client, in the order of their FileIds: a file twice where the client opened it
    /// twice.
    ///
    /// # Errors
    ///
    /// `Memory` where there is none left for the list.
    pub fn opened_files(&self, client: ClientNo) -> Result<Vec<FileNo>, Memory> {
        self.tables.files_of_client(client)
    }
}
