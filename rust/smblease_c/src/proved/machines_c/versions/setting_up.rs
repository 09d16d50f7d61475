// Made by tools/plain_rust from crates/machines_c/src/versions/setting_up.rt. Changes belong there.

use std::prelude::Box;

use crate::proved::machines_c::handles::Outcome;
use crate::proved::machines_c::versions::following::Following;
use crate::proved::machines_c::versions::handle::VersionsHandle;
use smblease::proved::lease_versions::Versions;
use std::alloc::Global;

/// Where nothing is open and nothing was asked. What the handle held is freed.
///
/// Returns 0; 1 where there is no memory, and the handle is as it was.
pub fn smblease_versions_new(alloc: Global, versions: &mut VersionsHandle) -> u32 {
    let made = Following { versions: Versions::new(alloc) };
    match Box::new(alloc, made) {
        Ok(following) => {
            versions.put(alloc, following);
            Outcome::Done.code()
        }
        Err(_) => Outcome::NoMemory.code(),
    }
}

/// Frees all that is known; the handle holds nothing then.
pub fn smblease_versions_free(alloc: Global, versions: &mut VersionsHandle) {
    drop(versions.take(alloc));
}

/// The functions of this module for C.
pub mod exported {
    use super::VersionsHandle;

    /// [`super::smblease_versions_new`] for C.
    #[unsafe(no_mangle)]
    pub extern "C" fn smblease_versions_new(versions: &mut VersionsHandle) -> u32 {
        super::smblease_versions_new(std::alloc::Global, versions)
    }

    /// [`super::smblease_versions_free`] for C.
    #[unsafe(no_mangle)]
    pub extern "C" fn smblease_versions_free(versions: &mut VersionsHandle) {
        super::smblease_versions_free(std::alloc::Global, versions)
    }
}
