// Made by tools/plain_rust from crates/machines_c/src/manager/leaving.rt. Changes belong there.

use std::prelude::Vec;

use crate::proved::machines_c::handles::Outcome;
use crate::proved::machines_c::manager::handle::ManagerHandle;
use smblease::proved::lease_manager::{ClientNo, Tag};
use smblease::proved::lease_state::{FileId, Memory};
use std::alloc::Global;

impl ManagerHandle {
    // A client leaves these of its opens, and what it asked under these tags.
    fn leave(&mut self, alloc: Global, client: ClientNo, file_ids: &[FileId], tags: &[Tag]) -> Outcome {
        match self.take(alloc) {
            None => Outcome::Nothing,
            Some(mut managing) => {
                let came = managing.leave(alloc, client, file_ids, tags);
                self.keep(alloc, managing, came)
            }
        }
    }
}

/// A client leaves these of its opens, and what it asked under these tags: the connection or the session that made them goes, and
/// the client stays, by another one (own; MS-SMB2 3.3.5.6, 3.3.7.1). Where it isn't connected nothing changes.
///
/// Returns 0; 1 where there is no memory for the lists: then nothing changed; 2 where memory ran out, and the manager is lost,
/// which is never where the client isn't connected; 3 where there is none.
pub fn smblease_manager_leave(alloc: Global, manager: &mut ManagerHandle, client: u64, file_ids: &[u64], tags: &[u64]) -> u32 {
    match (file_ids_of(alloc, file_ids), tags_of(alloc, tags)) {
        (Ok(file_ids), Ok(tags)) => manager.leave(alloc, ClientNo(client), &file_ids, &tags).code(),
        _ => Outcome::NoMemory.code(),
    }
}

fn file_ids_of(alloc: Global, given: &[u64]) -> Result<Vec<FileId>, Memory> {
    let mut ids = Vec::new(alloc);
    for number in given {
        ids.push(FileId(*number))?;
    }
    Ok(ids)
}

pub(crate) fn tags_of(alloc: Global, given: &[u64]) -> Result<Vec<Tag>, Memory> {
    let mut tags = Vec::new(alloc);
    for number in given {
        tags.push(Tag(*number))?;
    }
    Ok(tags)
}

/// The functions of this module for C.
pub mod exported {
    use super::ManagerHandle;

    /// [`super::smblease_manager_leave`] for C.
    ///
    /// # Safety
    ///
    /// There are as many items at each pointer as the length after it says; nobody writes them meanwhile, nor reads them where
    /// they are written. A pointer is null only where the length is 0.
    #[unsafe(no_mangle)]
    pub unsafe extern "C" fn smblease_manager_leave(
        manager: &mut ManagerHandle,
        client: u64,
        file_ids: *const u64,
        file_ids_length: usize,
        tags: *const u64,
        tags_length: usize,
    ) -> u32 {
        // SAFETY: the caller's word.
        super::smblease_manager_leave(
            std::alloc::Global,
            manager,
            client,
            unsafe { std::c::slice(file_ids, file_ids_length) },
            unsafe { std::c::slice(tags, tags_length) },
        )
    }
}
