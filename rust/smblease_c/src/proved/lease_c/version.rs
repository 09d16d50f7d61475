// Made by tools/plain_rust from crates/lease_c/src/version.rt. Changes belong there.

/// The version of this library: `struct smblease_version_numbers`.
#[repr(C)]
#[derive(Clone, Copy, Debug, PartialEq, Eq)]
pub struct LeaseVersion {
    /// Another one where a program that was linked before could no longer run.
    pub major: u32,
    /// Another one where something was added.
    pub minor: u32,
    pub patch: u32,
}

/// Returns the version of the library that runs (profile). The header has that of the library that
/// a program was compiled for.
pub fn smblease_version() -> LeaseVersion {
    LeaseVersion { major: 0, minor: 4, patch: 0 }
}

/// The functions of this module for C.
pub mod exported {
    use super::LeaseVersion;

    /// [`super::smblease_version`] for C.
    #[unsafe(no_mangle)]
    pub extern "C" fn smblease_version() -> LeaseVersion {
        super::smblease_version()
    }
}
