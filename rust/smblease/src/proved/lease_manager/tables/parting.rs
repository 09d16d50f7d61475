// Made by tools/plain_rust from crates/lease_manager/src/tables/parting.rt. Changes belong there.

use std::prelude::Vec;

use crate::proved::lease_manager::tables::Tables;
use crate::proved::lease_manager::tables::changes::{close_all, disconnect_all, forget_opens};
use crate::proved::lease_manager::tables::sets::listed;
use crate::proved::lease_manager::tables::still::forget_files;
use crate::proved::lease_manager::values::number::ClientNo;
use crate::proved::lease_state::{FileId, Memory};

/// Opens of a client whose connection goes (MS-SMB2 3.3.7.1), by their FileIds, rising.
#[derive(Debug)]
pub struct Parted {
    /// Those that were closed.
    pub ended: Vec<FileId>,
    /// Those that wait for the client.
    pub left: Vec<FileId>,
}

impl Tables {
    /// The FileIds of the client's connected opens, rising.
    ///
    /// # Errors
    ///
    /// `Memory` where there is none left for the list.
    pub fn of_client(&self, client: ClientNo) -> Result<Vec<FileId>, Memory> {
        self.opens.of_client(self.alloc(), client)
    }

    /// Those of them that are among these, rising.
    ///
    /// # Errors
    ///
    /// `Memory` where there is none left for the list.
    pub fn named(&self, client: ClientNo, file_ids: &[FileId]) -> Result<Vec<FileId>, Memory> {
        let names = self.opens.named(self.alloc(), client, file_ids)?;
        let ids = listed(self.alloc(), &names)?;
        Ok(ids)
    }

    /// Of these opens, which are all connected ones that pass a test, those that outlive a connection wait for their client from
    /// now on, and the others are closed.
    ///
    /// # Errors
    ///
    /// `Memory` where there is none left for the lists of FileIds; no open is left then, or nothing has changed.
    pub fn part(&mut self, named: &[FileId]) -> Result<Parted, Memory> {
        let alloc = self.alloc();
        let ended = self.opens.lasting(alloc, named, &self.summaries, false)?;
        let left = self.opens.lasting(alloc, named, &self.summaries, true)?;
        forget_files(&mut self.waiting, &self.opens, named);
        close_all(&mut self.opens, &mut self.summaries, &ended);
        match disconnect_all(&mut self.opens, alloc, &left) {
            Ok(()) => Ok(Parted { ended, left }),
            Err(memory) => {
                self.waiting.clear();
                forget_opens(&mut self.opens, &mut self.summaries, alloc);
                Err(memory)
            }
        }
    }
}
