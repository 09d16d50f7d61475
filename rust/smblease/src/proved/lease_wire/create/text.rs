// Made by tools/plain_rust from crates/lease_wire/src/create/text.rt. Changes belong there.

use crate::proved::lease_state::FileId;
use crate::proved::lease_wire::create::Direction;
use crate::proved::lease_wire::create::meaning::Lease;
use crate::proved::lease_wire::create::reading::ContextValues;
use arrayvec::ArrayVec;
use byteorder::{ByteOrder, LittleEndian};

// The names of the contexts that are known (MS-SMB2 2.2.13.2).
const LEASE: &[u8; 4] = b"RqLs";

const DURABLE: &[u8; 4] = b"DHnQ";

const RECONNECT: &[u8; 4] = b"DHnC";

// The header of a context with its name, which is four bytes long.
fn header(next: u32, name: &[u8; 4], count: u32) -> [u8; 24] {
    let mut bytes = [0u8; 24];
    LittleEndian::write_u32(&mut bytes[0..], next);
    LittleEndian::write_u16(&mut bytes[4..], 16);
    LittleEndian::write_u16(&mut bytes[6..], 4);
    LittleEndian::write_u16(&mut bytes[10..], 24);
    LittleEndian::write_u32(&mut bytes[12..], count);
    bytes[16..20].copy_from_slice(name);
    bytes
}

fn lease_flags(breaking: bool) -> u32 {
    if breaking { 2 } else { 0 }
}

fn lease_data(lease: &Lease) -> [u8; 32] {
    let mut bytes = [0u8; 32];
    LittleEndian::write_u32(&mut bytes[16..], lease.state.to_wire());
    LittleEndian::write_u32(&mut bytes[20..], lease_flags(lease.breaking));
    bytes[0..16].copy_from_slice(&lease.key.0);
    bytes
}

fn reconnect_data(file_id: FileId) -> [u8; 16] {
    let mut bytes = [0u8; 16];
    LittleEndian::write_u64(&mut bytes[0..], file_id.0);
    LittleEndian::write_u64(&mut bytes[8..], file_id.0);
    bytes
}

// Appends bytes that the text has room for.
fn push(text: &mut ArrayVec<u8, 136>, part: &[u8]) {
    let _fits = text.try_extend_from_slice(part);
}

fn push_context(text: &mut ArrayVec<u8, 136>, followed: bool, name: &[u8; 4], data: &[u8]) {
    let count = data.len() as u32;
    let next = if followed { 24 + count } else { 0 };
    push(text, &header(next, name, count));
    push(text, data);
}

fn push_lease(text: &mut ArrayVec<u8, 136>, followed: bool, lease: &Option<Lease>) {
    if let Some(lease) = lease {
        push_context(text, followed, LEASE, &lease_data(lease));
    }
}

fn push_durable(text: &mut ArrayVec<u8, 136>, direction: Direction, followed: bool, durable: bool) {
    if !durable {
        return;
    }
    match direction {
        Direction::Request => push_context(text, followed, DURABLE, &[0u8; 16]),
        Direction::Reply => push_context(text, followed, DURABLE, &[0u8; 8]),
    }
}

fn push_reconnect(text: &mut ArrayVec<u8, 136>, reconnect: Option<FileId>) {
    if let Some(file_id) = reconnect {
        push_context(text, false, RECONNECT, &reconnect_data(file_id));
    }
}

/// Puts the canonical text of what is asked for or granted into a text of no bytes: 136 bytes at
/// most, where it has a lease, a durable open and a reconnect.
#[inline(always)]
pub(crate) fn push_text(text: &mut ArrayVec<u8, 136>, direction: Direction, values: &ContextValues) {
    let reconnects = values.reconnect.is_some();
    push_lease(text, values.durable || reconnects, &values.lease);
    push_durable(text, direction, reconnects, values.durable);
    push_reconnect(text, values.reconnect);
}
