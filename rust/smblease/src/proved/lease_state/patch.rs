// Made by tools/plain_rust from crates/lease_state/src/patch.rt. Changes belong there.

use std::prelude::Vec;

use crate::proved::lease_state::content::FILE_LIMIT;
use crate::proved::lease_state::{Bytes, Memory};

/// Bytes to be put into a file (profile): its content from byte `offset` on becomes `bytes`.
#[derive(Debug, PartialEq, Eq)]
pub struct Patch {
    /// The place of the first byte, counted in bytes from the file's start.
    pub offset: u32,
    pub bytes: Bytes,
}

impl Patch {
    /// An equal patch in memory of its own.
    ///
    /// # Errors
    ///
    /// `Memory` where there is none left.
    pub fn try_copy(&self) -> Result<Patch, Memory> {
        Ok(Patch { offset: self.offset, bytes: self.bytes.try_copy()? })
    }

    /// Whether the patch ends within `FILE_LIMIT` (profile), also one without bytes.
    pub fn is_within_limit(&self) -> bool {
        let count = self.bytes.len();
        count <= FILE_LIMIT && self.offset as usize <= FILE_LIMIT - count
    }

    /// Puts the patch's bytes at its offset, and zeros into a gap before them; an empty patch changes
    /// nothing. The limit of a file is not looked at.
    ///
    /// # Errors
    ///
    /// `Memory` only where the bytes have to grow and there is none left. They are as they were then.
    pub fn apply(&self, bytes: &mut Vec<u8>) -> Result<(), Memory> {
        let held = bytes.len();
        let offset = self.offset as usize;
        let added = self.bytes.as_slice();
        if !added.is_empty() {
            let Some(end) = offset.checked_add(added.len()) else {
                return Err(Memory);
            };
            bytes.resize(end.max(held), 0)?;
            write_over(bytes, offset, added);
        }
        Ok(())
    }
}

// Writes bytes over those from `offset` on.
fn write_over(items: &mut [u8], offset: usize, bytes: &[u8]) {
    items[offset..offset + bytes.len()].copy_from_slice(bytes);
}

#[cfg(test)]
mod tests {
    use std::prelude::{HostRuntime, Vec};

    use super::*;
    use std::test::Fail;

    #[test]
    fn copies_a_patch() {
        std::test::passes(|| -> Result<(), Fail> {
            let rt = HostRuntime::host();
            let patch = Patch { offset: 4, bytes: Bytes::new(Vec::from_slice(rt.alloc(), b"Y")?) };
            let copy = patch.try_copy()?;
            assert_eq!(copy, patch);
            assert_eq!(copy.offset, 4);
            assert_eq!(copy.bytes.as_slice(), b"Y".as_slice());
            Ok(())
        })
    }

    #[test]
    fn patches_bytes_past_the_limit_of_a_file() {
        std::test::passes(|| -> Result<(), Fail> {
            let rt = HostRuntime::host();
            let patch = Patch { offset: 1_048_575, bytes: Bytes::new(Vec::from_slice(rt.alloc(), b"YZ")?) };
            assert!(!patch.is_within_limit());
            let mut bytes = Vec::from_slice(rt.alloc(), b"abc")?;
            patch.apply(&mut bytes)?;
            assert_eq!(bytes.len(), 1_048_577);
            assert_eq!(&bytes.as_slice()[..4], b"abc\0".as_slice());
            assert_eq!(&bytes.as_slice()[1_048_574..], b"\0YZ".as_slice());
            Ok(())
        })
    }
}
