// Made by tools/plain_rust from crates/lease_manager/src/manager/restarting.rt. Changes belong there.

use std::prelude::Vec;

use crate::proved::lease_manager::manager::Manager;
use crate::proved::lease_manager::restoring::restored;
use crate::proved::lease_manager::values::kept::KeptOpen;
use crate::proved::lease_manager::values::number::FileNo;
use crate::proved::lease_manager::values::restore_error::RestoreError;
use crate::proved::lease_state::{FileId, Memory, Rules};
use std::alloc::Global;

impl Manager {
    /// A manager as by `with_files` that has these opens, in the order of their FileIds, where `last` is the FileId given last:
    /// what a host makes of what it kept by `kept_opens` and `last_file_id` over a restart, of which MS-SMB2 says nothing. No
    /// client has joined, so each open waits for its client to connect again (3.3.5.9.7), and nothing else waits.
    ///
    /// # Errors
    ///
    /// `Unlawful` where a law that holds of every manager would be broken, and only there: FileIds don't rise, or aren't from 1
    /// to `last`; a file isn't from 1 to `files`; a key has opens on two files or with two states; a state isn't a granted
    /// form, or lacks `HANDLE_CACHING`; two opens on a file conflict; or a key that holds `WRITE_CACHING` isn't alone on its
    /// file. `Memory` where there is none left, and never for no opens.
    ///
    /// ```text
    /// let (rules, files, last) = (manager.rules(), manager.files(), manager.last_file_id());
    /// let kept = manager.kept_opens()?;
    /// // The host comes up again.
    /// let manager = Manager::restored(alloc, rules, files, last, &kept)?;
    /// ```
    pub fn restored(
        alloc: Global,
        rules: Rules,
        files: FileNo,
        last: FileId,
        kept: &[KeptOpen],
    ) -> Result<Manager, RestoreError> {
        match restored(alloc, rules, files, last, kept) {
            Ok(tables) => Ok(Manager { tables }),
            Err(error) => Err(error),
        }
    }

    /// The opens that would be there were each client cut now (MS-SMB2 3.3.7.1), in the order of their FileIds, with what their
    /// leases hold: what a host keeps of its durable opens over a restart of its own.
    ///
    /// # Errors
    ///
    /// `Memory` where there is none left for the list.
    pub fn kept_opens(&self) -> Result<Vec<KeptOpen>, Memory> {
        self.tables.kept_opens()
    }

    /// The FileId given last, 0 before the first: what a host keeps over a restart next to `kept_opens`, so that no FileId is
    /// given twice.
    pub fn last_file_id(&self) -> FileId {
        FileId(self.tables.last_id())
    }
}
