// Made by tools/plain_rust from crates/kept_opens/src/writing.rt. Changes belong there.

use std::prelude::Vec;

use crate::proved::kept_opens::entry::entry_bytes;
use crate::proved::lease_manager::KeptOpen;
use crate::proved::lease_state::{FileId, Memory};
use byteorder::{ByteOrder, LittleEndian};
use sha2::{Digest, Sha256};
use std::alloc::Global;

/// The first bytes of all texts.
pub(crate) const MAGIC: [u8; 8] = *b"SMBKEPT1";

// What stands before the opens.
fn heading(last: FileId, count: u64) -> [u8; 24] {
    let mut bytes = [0u8; 24];
    bytes[..8].copy_from_slice(&MAGIC);
    LittleEndian::write_u64(&mut bytes[8..], last.0);
    LittleEndian::write_u64(&mut bytes[16..], count);
    bytes
}

/// The bytes of opens that are kept, with the FileId that their server gave last (own). Bits of a state that name nothing are
/// not written.
///
/// # Errors
///
/// `Memory` where there is none left for the bytes.
pub fn write(alloc: Global, last: FileId, kept: &[KeptOpen]) -> Result<Vec<u8>, Memory> {
    let mut bytes = Vec::new(alloc);
    bytes.extend_from_slice(&heading(last, kept.len() as u64))?;
    for one in kept {
        bytes.extend_from_slice(&entry_bytes(*one))?;
    }
    let digest = Sha256::digest(bytes.as_slice());
    bytes.extend_from_slice(&digest)?;
    Ok(bytes)
}
