// Made by tools/plain_rust from crates/kept_opens/src/managers.rt. Changes belong there.

use std::prelude::Vec;

use crate::proved::kept_opens::fault::{ImportError, ReadError};
use crate::proved::kept_opens::reading::read;
use crate::proved::kept_opens::writing::write;
use crate::proved::lease_manager::{FileNo, Manager, RestoreError};
use crate::proved::lease_state::{Memory, Rules};
use std::alloc::Global;

/// The bytes of what a manager's host keeps over a restart of its own: the opens that would be there were each client cut now
/// (MS-SMB2 3.3.7.1), with what their leases hold, and the FileId given last.
///
/// # Errors
///
/// `Memory` where there is none left for the bytes.
pub fn export(alloc: Global, manager: &Manager) -> Result<Vec<u8>, Memory> {
    let kept = manager.kept_opens()?;
    write(alloc, manager.last_file_id(), &kept)
}

/// The manager of these rules, and of files from 1 to this one, that the bytes make: it has the opens that they hold, each of
/// which waits for its client to connect again (MS-SMB2 3.3.5.9.7), and nothing else.
///
/// # Errors
///
/// `Damaged` where no opens have these bytes. `Unlawful` where the opens that they hold would break a law that holds of every
/// manager, as `Manager::restored` says. `Memory` where there is none left.
pub fn import(alloc: Global, rules: Rules, files: FileNo, bytes: &[u8]) -> Result<Manager, ImportError> {
    match read(alloc, bytes) {
        Ok(kept) => match Manager::restored(alloc, rules, files, kept.last, &kept.opens) {
            Ok(manager) => Ok(manager),
            Err(RestoreError::Unlawful) => Err(ImportError::Unlawful),
            Err(RestoreError::Memory) => Err(ImportError::Memory),
        },
        Err(ReadError::Damaged) => Err(ImportError::Damaged),
        Err(ReadError::Memory) => Err(ImportError::Memory),
    }
}
