//! Words for records in tests.

use smblease_std::prelude::Vec;

use smblease::proved::lease_client::{Settlement, SharedBytes};
use smblease::proved::lease_state::{Bytes, ClientNo, FileNo, LeaseState, Memory, Patch};
use smblease::proved::lease_world::Fact;
use smblease_std::alloc::Global;

/// The facts in order, or why one of them couldn't be made.
pub fn record<const N: usize>(alloc: Global, facts: [Result<Fact, Memory>; N]) -> Result<Vec<Fact>, Memory> {
    let mut record = Vec::new(alloc);
    for fact in Vec::from_array(alloc, facts)? {
        record.push(fact?)?;
    }
    Ok(record)
}

pub fn bytes(alloc: Global, bytes: &[u8]) -> Result<Bytes, Memory> {
    Ok(Bytes::new(Vec::from_slice(alloc, bytes)?))
}

pub fn patch(alloc: Global, offset: u32, added: &[u8]) -> Result<Patch, Memory> {
    Ok(Patch { offset, bytes: bytes(alloc, added)? })
}

pub fn start(alloc: Global, file: u8, first: &[u8]) -> Result<Fact, Memory> {
    Ok(Fact::Start(FileNo(file), bytes(alloc, first)?))
}

pub fn joined(client: u8) -> Result<Fact, Memory> {
    Ok(Fact::Joined(ClientNo(client)))
}

pub fn dropped(client: u8) -> Result<Fact, Memory> {
    Ok(Fact::Dropped(ClientNo(client)))
}

pub fn expired(client: u8, file: u8) -> Result<Fact, Memory> {
    Ok(Fact::Expired(ClientNo(client), FileNo(file)))
}

pub fn sent(client: u8) -> Result<Fact, Memory> {
    Ok(Fact::Sent(ClientNo(client)))
}

pub fn took(client: u8) -> Result<Fact, Memory> {
    Ok(Fact::Took(ClientNo(client)))
}

pub fn opened(file: u8, client: u8) -> Result<Fact, Memory> {
    Ok(Fact::Opened(FileNo(file), ClientNo(client)))
}

/// The file is changed by the client's write of this number, one byte at the offset.
pub fn changed(alloc: Global, file: u8, client: u8, number: u64, offset: u32, byte: u8) -> Result<Fact, Memory> {
    let patch = patch(alloc, offset, &[byte])?;
    Ok(Fact::Changed(FileNo(file), ClientNo(client), number, patch))
}

/// The client buffers a write of one byte at the offset.
pub fn buffered(alloc: Global, client: u8, file: u8, number: u64, offset: u32, byte: u8) -> Result<Fact, Memory> {
    let patch = patch(alloc, offset, &[byte])?;
    Ok(Fact::Wrote(ClientNo(client), FileNo(file), number, patch, true))
}

/// The client sends a write of one byte at the offset.
pub fn through(alloc: Global, client: u8, file: u8, number: u64, offset: u32, byte: u8) -> Result<Fact, Memory> {
    let patch = patch(alloc, offset, &[byte])?;
    Ok(Fact::Wrote(ClientNo(client), FileNo(file), number, patch, false))
}

pub fn settled(client: u8, number: u64, outcome: Settlement) -> Result<Fact, Memory> {
    Ok(Fact::Settled(ClientNo(client), number, outcome))
}

/// The client believes the state that the wire's number names: 1 reads, 2 handles, 4 writes.
pub fn believes(client: u8, file: u8, state: u32) -> Result<Fact, Memory> {
    Ok(Fact::Believes(ClientNo(client), FileNo(file), LeaseState::from_wire(state)))
}

pub fn read(alloc: Global, client: u8, file: u8, seen: &[u8]) -> Result<Fact, Memory> {
    let seen = SharedBytes::new(bytes(alloc, seen)?)?;
    Ok(Fact::CachedRead(ClientNo(client), FileNo(file), seen))
}

pub fn strayed(client: u8) -> Result<Fact, Memory> {
    Ok(Fact::Strayed(ClientNo(client)))
}
