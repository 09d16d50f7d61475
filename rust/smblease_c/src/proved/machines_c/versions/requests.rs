// Made by tools/plain_rust from crates/machines_c/src/versions/requests.rt. Changes belong there.

use crate::proved::machines_c::handles::Outcome;
use crate::proved::machines_c::manager::leaving::tags_of;
use crate::proved::machines_c::versions::handle::VersionsHandle;
use smblease::proved::lease_manager::{ClientNo, Tag};
use smblease::proved::lease_state::{FileId, Memory};
use std::alloc::Global;

// What became of a call that may want memory.
fn outcome_of(came: Result<(), Memory>) -> Outcome {
    match came {
        Ok(()) => Outcome::Done,
        Err(_) => Outcome::NoMemory,
    }
}

/// A client asks the manager under this tag that the open of this FileId be closed.
///
/// Returns 0; 1 where there is no memory, and nothing changed; 3 where the handle holds nothing.
pub fn smblease_versions_closing(alloc: Global, versions: &mut VersionsHandle, client: u64, tag: u64, file_id: u64) -> u32 {
    match versions.take(alloc) {
        None => Outcome::Nothing.code(),
        Some(mut following) => {
            let came = following.versions.closing(ClientNo(client), Tag(tag), FileId(file_id));
            versions.put(alloc, following);
            outcome_of(came).code()
        }
    }
}

/// What the client asked is forgotten, as its connection is cut.
///
/// Returns 0; 3 where the handle holds nothing.
pub fn smblease_versions_forget(alloc: Global, versions: &mut VersionsHandle, client: u64) -> u32 {
    match versions.take(alloc) {
        None => Outcome::Nothing.code(),
        Some(mut following) => {
            following.versions.forget(ClientNo(client));
            versions.put(alloc, following);
            Outcome::Done.code()
        }
    }
}

/// What the client asked under these tags is forgotten, as it leaves them.
///
/// Returns 0; 1 where there is no memory for the list, and nothing changed; 3 where the handle holds nothing.
pub fn smblease_versions_leave(alloc: Global, versions: &mut VersionsHandle, client: u64, tags: &[u64]) -> u32 {
    match tags_of(alloc, tags) {
        Err(_) => Outcome::NoMemory.code(),
        Ok(tags) => match versions.take(alloc) {
            None => Outcome::Nothing.code(),
            Some(mut following) => {
                following.versions.leave(ClientNo(client), &tags);
                versions.put(alloc, following);
                Outcome::Done.code()
            }
        },
    }
}

/// The functions of this module for C.
pub mod exported {
    use super::VersionsHandle;

    /// [`super::smblease_versions_closing`] for C.
    #[unsafe(no_mangle)]
    pub extern "C" fn smblease_versions_closing(versions: &mut VersionsHandle, client: u64, tag: u64, file_id: u64) -> u32 {
        super::smblease_versions_closing(std::alloc::Global, versions, client, tag, file_id)
    }

    /// [`super::smblease_versions_forget`] for C.
    #[unsafe(no_mangle)]
    pub extern "C" fn smblease_versions_forget(versions: &mut VersionsHandle, client: u64) -> u32 {
        super::smblease_versions_forget(std::alloc::Global, versions, client)
    }

    /// [`super::smblease_versions_leave`] for C.
    ///
    /// # Safety
    ///
    /// There are as many items at each pointer as the length after it says; nobody writes them meanwhile, nor reads them where
    /// they are written. A pointer is null only where the length is 0.
    #[unsafe(no_mangle)]
    pub unsafe extern "C" fn smblease_versions_leave(
        versions: &mut VersionsHandle,
        client: u64,
        tags: *const u64,
        tags_length: usize,
    ) -> u32 {
        // SAFETY: the caller's word.
        super::smblease_versions_leave(std::alloc::Global, versions, client, unsafe { std::c::slice(tags, tags_length) })
    }
}
