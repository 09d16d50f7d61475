// Made by tools/plain_rust from crates/lease_world/src/world/first.rt. Changes belong there.

use std::prelude::Vec;

use crate::proved::lease_client::Client;
use crate::proved::lease_facts::Fact;
use crate::proved::lease_state::{Bytes, Content, FileNo, Memory};
use crate::proved::lease_world::world::seat::Seat;
use std::alloc::Global;

/// Equal contents in memory of their own.
///
/// # Errors
///
/// `Memory` where there is none left.
pub fn copy_contents(alloc: Global, files: &[Content]) -> Result<Vec<Content>, Memory> {
    let mut copies = Vec::new(alloc);
    for place in 0..files.len() {
        copies.push(files[place].try_copy()?)?;
    }
    Ok(copies)
}

/// The facts that the files are there.
///
/// # Errors
///
/// `Memory` where there is none left.
pub fn starts(alloc: Global, files: &[Content]) -> Result<Vec<Fact>, Memory> {
    let mut facts = Vec::new(alloc);
    for place in 0..files.len() {
        let bytes = Bytes::new(Vec::from_slice(alloc, files[place].bytes())?);
        facts.push(Fact::Start(FileNo(place as u8 + 1), bytes))?;
    }
    Ok(facts)
}

/// Clients that were never connected, each of this many files.
///
/// # Errors
///
/// `Memory` where there is none left.
pub fn seats(alloc: Global, guids: &[[u8; 16]], files: u8) -> Result<Vec<Seat>, Memory> {
    let mut seats = Vec::new(alloc);
    for place in 0..guids.len() {
        let guid = guids[place];
        let client = Client::new(alloc, guid, files)?;
        seats.push(Seat::new(alloc, guid, client))?;
    }
    Ok(seats)
}
