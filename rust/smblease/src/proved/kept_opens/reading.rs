// Made by tools/plain_rust from crates/kept_opens/src/reading.rt. Changes belong there.

use std::prelude::Vec;

use crate::proved::kept_opens::entry::{ENTRY_SIZE, entry_of, number_at};
use crate::proved::kept_opens::fault::ReadError;
use crate::proved::kept_opens::writing::MAGIC;
use crate::proved::lease_manager::KeptOpen;
use crate::proved::lease_state::{FileId, Memory};
use sha2::{Digest, Sha256};
use std::alloc::Global;

// How many bytes stand before the opens, and after them.
const HEADING_SIZE: usize = 24;

const DIGEST_SIZE: usize = 32;

/// Opens that were kept over a restart.
#[derive(Debug)]
pub struct Kept {
    /// The FileId that their server gave last: those that it gives from now on are later ones.
    pub last: FileId,
    /// The opens, as they were written.
    pub opens: Vec<KeptOpen>,
}

// Whether the length is that of as many opens as the bytes name.
fn has_size(bytes: &[u8]) -> bool {
    if bytes.len() < HEADING_SIZE + DIGEST_SIZE {
        return false;
    }
    let entries = bytes.len() - HEADING_SIZE - DIGEST_SIZE;
    entries % ENTRY_SIZE == 0 && (entries / ENTRY_SIZE) as u64 == number_at(bytes, 16)
}

// Whether the bytes have this length, begin with the magic and end with the digest of the others.
fn is_sealed(bytes: &[u8]) -> bool {
    if !has_size(bytes) {
        return false;
    }
    let (text, digest) = bytes.split_at(bytes.len() - DIGEST_SIZE);
    text.starts_with(&MAGIC) && digest == Sha256::digest(text).as_slice()
}

// The bytes of the opens.
fn entries_in(bytes: &[u8]) -> &[u8] {
    &bytes[HEADING_SIZE..bytes.len() - DIGEST_SIZE]
}

// Whether bytes are those of opens, one after the other.
fn are_entries(bytes: &[u8], count: usize) -> bool {
    let mut rest = bytes;
    for _index in 0..count {
        let (first, after) = rest.split_at(ENTRY_SIZE);
        match entry_of(first) {
            Some(_one) => rest = after,
            None => return false,
        }
    }
    true
}

// The opens that bytes hold.
fn entries_of(alloc: Global, bytes: &[u8], count: usize) -> Result<Vec<KeptOpen>, Memory> {
    let mut opens = Vec::new(alloc);
    let mut rest = bytes;
    for _index in 0..count {
        let (first, after) = rest.split_at(ENTRY_SIZE);
        if let Some(one) = entry_of(first) {
            opens.push(one)?;
        }
        rest = after;
    }
    Ok(opens)
}

/// Reads the opens that were kept (own).
///
/// # Errors
///
/// `Damaged` where no opens have these bytes: they are another file's, were cut off or changed, or something follows them.
/// `Memory` where there is none left for the opens, and then the bytes are not damaged. The length is looked at first, so bytes
/// that name more opens than they hold take no memory.
pub fn read(alloc: Global, bytes: &[u8]) -> Result<Kept, ReadError> {
    if !is_sealed(bytes) {
        return Err(ReadError::Damaged);
    }
    let entries = entries_in(bytes);
    let count = entries.len() / ENTRY_SIZE;
    if !are_entries(entries, count) {
        return Err(ReadError::Damaged);
    }
    let opens = entries_of(alloc, entries, count)?;
    Ok(Kept { last: FileId(number_at(bytes, 8)), opens })
}
