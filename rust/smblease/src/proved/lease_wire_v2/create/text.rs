// Made by tools/plain_rust from crates/lease_wire_v2/src/create/text.rt. Changes belong there.

use crate::proved::capture_wire::{LeaseV2, Smb2FileId};
use crate::proved::lease_wire::Direction;
use crate::proved::lease_wire_v2::create::meaning::AnyDurable;
use crate::proved::lease_wire_v2::create::reading::Values;
use crate::proved::lease_wire_v2::create::{LeaseAnswer, Reconnect, SecondVersion};
use crate::proved::lease_wire_v2::durable::{
    encode_durable_reconnect_v2, encode_durable_request_v2, encode_durable_response_v2, file_id_bytes,
};
use crate::proved::lease_wire_v2::lease::encode_lease_v2;
use arrayvec::ArrayVec;
use byteorder::{ByteOrder, LittleEndian};

// The names of the contexts (MS-SMB2 2.2.13.2).
const LEASE: &[u8; 4] = b"RqLs";

const DURABLE: &[u8; 4] = b"DHnQ";

const DURABLE_V2: &[u8; 4] = b"DH2Q";

const RECONNECT: &[u8; 4] = b"DHnC";

const RECONNECT_V2: &[u8; 4] = b"DH2C";

/// No canonical text of create contexts takes more bytes: three contexts, with data of 52, 32 and 36 bytes at most, each with a
/// header of 24 bytes and 4 bytes of padding.
pub const CONTEXTS_LIMIT: usize = 204;

// The header of a context with its name, which is four bytes long.
fn header(next: u32, name: &[u8; 4], count: u32) -> [u8; 24] {
    let mut bytes = [0u8; 24];
    LittleEndian::write_u32(&mut bytes[0..], next);
    LittleEndian::write_u16(&mut bytes[4..], 16);
    LittleEndian::write_u16(&mut bytes[6..], 4);
    LittleEndian::write_u16(&mut bytes[10..], 24);
    LittleEndian::write_u32(&mut bytes[12..], count);
    bytes[16..20].copy_from_slice(name);
    bytes
}

fn lease_flags(breaking: bool) -> u32 {
    if breaking { 2 } else { 0 }
}

// The data of a lease of version 1.
fn first_lease_data(lease: &LeaseAnswer) -> [u8; 32] {
    let mut bytes = [0u8; 32];
    LittleEndian::write_u32(&mut bytes[16..], lease.state.to_wire());
    LittleEndian::write_u32(&mut bytes[20..], lease_flags(lease.breaking));
    bytes[0..16].copy_from_slice(&lease.key.0);
    bytes
}

// Appends bytes that the text has room for.
fn push(text: &mut ArrayVec<u8, CONTEXTS_LIMIT>, part: &[u8]) {
    let _fits = text.try_extend_from_slice(part);
}

// Appends zeros up to the next multiple of 8 after so many bytes.
fn push_padding(text: &mut ArrayVec<u8, CONTEXTS_LIMIT>, count: usize) {
    if count % 8 != 0 {
        push(text, &[0u8; 4]);
    }
}

fn padding_size(count: usize) -> u32 {
    if count % 8 == 0 { 0 } else { 4 }
}

fn push_followed(text: &mut ArrayVec<u8, CONTEXTS_LIMIT>, name: &[u8; 4], data: &[u8]) {
    let count = data.len();
    let next = 24 + count as u32 + padding_size(count);
    push(text, &header(next, name, count as u32));
    push(text, data);
    push_padding(text, count);
}

fn push_last(text: &mut ArrayVec<u8, CONTEXTS_LIMIT>, name: &[u8; 4], data: &[u8]) {
    push(text, &header(0, name, data.len() as u32));
    push(text, data);
}

fn push_context(text: &mut ArrayVec<u8, CONTEXTS_LIMIT>, followed: bool, name: &[u8; 4], data: &[u8]) {
    if followed {
        push_followed(text, name, data);
    } else {
        push_last(text, name, data);
    }
}

fn second_lease(lease: &LeaseAnswer, second: SecondVersion) -> LeaseV2 {
    LeaseV2 { key: lease.key, state: lease.state, breaking: lease.breaking, parent: second.parent, epoch: second.epoch }
}

fn push_lease(text: &mut ArrayVec<u8, CONTEXTS_LIMIT>, direction: Direction, followed: bool, lease: &LeaseAnswer) {
    match lease.second {
        None => push_context(text, followed, LEASE, &first_lease_data(lease)),
        Some(second) => {
            let lease = second_lease(lease, second);
            push_context(text, followed, LEASE, &encode_lease_v2(direction, &lease));
        }
    }
}

fn push_first_durable(text: &mut ArrayVec<u8, CONTEXTS_LIMIT>, direction: Direction, followed: bool) {
    match direction {
        Direction::Request => push_context(text, followed, DURABLE, &[0u8; 16]),
        Direction::Reply => push_context(text, followed, DURABLE, &[0u8; 8]),
    }
}

fn push_durable(text: &mut ArrayVec<u8, CONTEXTS_LIMIT>, direction: Direction, followed: bool, durable: AnyDurable) {
    match durable {
        AnyDurable::First => push_first_durable(text, direction, followed),
        AnyDurable::Asked(ask) => {
            push_context(text, followed, DURABLE_V2, &encode_durable_request_v2(&ask));
        }
        AnyDurable::Granted(grant) => {
            push_context(text, followed, DURABLE_V2, &encode_durable_response_v2(&grant));
        }
    }
}

// Persistent and Volatile of a FileId of version 1 both hold it, as `lease_wire` writes it.
fn push_reconnect(text: &mut ArrayVec<u8, CONTEXTS_LIMIT>, reconnect: Reconnect) {
    match reconnect {
        Reconnect::First(file_id) => {
            let both = Smb2FileId { persistent: file_id.0, volatile: file_id.0 };
            push_last(text, RECONNECT, &file_id_bytes(both));
        }
        Reconnect::Second(reconnect) => {
            push_last(text, RECONNECT_V2, &encode_durable_reconnect_v2(&reconnect));
        }
    }
}

fn push_lease_of(text: &mut ArrayVec<u8, CONTEXTS_LIMIT>, direction: Direction, followed: bool, lease: &Option<LeaseAnswer>) {
    if let Some(lease) = lease {
        push_lease(text, direction, followed, lease);
    }
}

fn push_durable_of(text: &mut ArrayVec<u8, CONTEXTS_LIMIT>, direction: Direction, followed: bool, durable: Option<AnyDurable>) {
    if let Some(durable) = durable {
        push_durable(text, direction, followed, durable);
    }
}

fn push_reconnect_of(text: &mut ArrayVec<u8, CONTEXTS_LIMIT>, reconnect: Option<Reconnect>) {
    if let Some(reconnect) = reconnect {
        push_reconnect(text, reconnect);
    }
}

/// Puts the canonical text of what is asked for or granted into a text of no bytes.
pub(crate) fn push_text(text: &mut ArrayVec<u8, CONTEXTS_LIMIT>, direction: Direction, values: &Values) {
    let reconnects = values.reconnect.is_some();
    let follows = values.durable.is_some() || reconnects;
    push_lease_of(text, direction, follows, &values.lease);
    push_durable_of(text, direction, reconnects, values.durable);
    push_reconnect_of(text, values.reconnect);
}
