// Made by tools/plain_rust from crates/machines_c/src/handles/room.rt. Changes belong there.

use std::prelude::Vec;

use crate::proved::machines_c::handles::Outcome;
use smblease::proved::lease_state::{Bytes, FileId, Memory};
use std::alloc::Global;

/// Writes all of the bytes to the front of the room, or nothing where it is shorter. Returns how
/// many bytes there are.
pub fn fill(room: &mut [u8], bytes: &[u8]) -> usize {
    if bytes.len() <= room.len() {
        room[..bytes.len()].copy_from_slice(bytes);
    }
    bytes.len()
}

/// The bytes in memory of their own.
///
/// # Errors
///
/// `Memory` where there is none left.
pub fn copied(alloc: Global, bytes: &[u8]) -> Result<Bytes, Memory> {
    Ok(Bytes::new(Vec::from_slice(alloc, bytes)?))
}

/// A FileId that is there is written into `out`.
pub fn write_id(found: Option<FileId>, out: &mut u64) -> Outcome {
    match found {
        Some(id) => {
            *out = id.0;
            Outcome::Done
        }
        None => Outcome::NoSuch,
    }
}
