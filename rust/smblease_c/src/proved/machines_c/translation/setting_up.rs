// Made by tools/plain_rust from crates/machines_c/src/translation/setting_up.rt. Changes belong there.

use std::prelude::Box;

use crate::proved::machines_c::handles::Outcome;
use crate::proved::machines_c::translation::handle::ClientVersionsHandle;
use crate::proved::machines_c::translation::translating::Translating;
use smblease::proved::client_versions::ClientVersions;
use std::alloc::Global;

/// Where nothing is known. What the handle held is freed.
///
/// Returns 0; 1 where there is no memory, and the handle is as it was.
pub fn smblease_client_versions_new(alloc: Global, versions: &mut ClientVersionsHandle) -> u32 {
    let made = Translating { versions: ClientVersions::new(alloc) };
    match Box::new(alloc, made) {
        Ok(translating) => {
            versions.put(alloc, translating);
            Outcome::Done.code()
        }
        Err(_) => Outcome::NoMemory.code(),
    }
}

/// Frees all that is known; the handle holds nothing then.
pub fn smblease_client_versions_free(alloc: Global, versions: &mut ClientVersionsHandle) {
    drop(versions.take(alloc));
}

/// The functions of this module for C.
pub mod exported {
    use super::ClientVersionsHandle;

    /// [`super::smblease_client_versions_new`] for C.
    #[unsafe(no_mangle)]
    pub extern "C" fn smblease_client_versions_new(versions: &mut ClientVersionsHandle) -> u32 {
        super::smblease_client_versions_new(std::alloc::Global, versions)
    }

    /// [`super::smblease_client_versions_free`] for C.
    #[unsafe(no_mangle)]
    pub extern "C" fn smblease_client_versions_free(versions: &mut ClientVersionsHandle) {
        super::smblease_client_versions_free(std::alloc::Global, versions)
    }
}
