// Made by tools/plain_rust from crates/lease_c/src/append.rt. Changes belong there.

use byteorder::{ByteOrder, LittleEndian};
use smblease::proved::lease_wire::contexts;

// How many bytes are missing to a multiple of 8.
fn gap(count: usize) -> usize {
    (8 - count % 8) % 8
}

// Where the last context begins; None where the text has a fault.
fn last_place(text: &[u8]) -> Option<usize> {
    let mut last = 0;
    for item in contexts(text) {
        match item {
            Ok(context) => last = context.place,
            Err(_) => return None,
        }
    }
    Some(last)
}

fn put(room: &mut [u8], place: usize, part: &[u8]) {
    room[place..place + part.len()].copy_from_slice(part);
}

fn put_zeros(room: &mut [u8], place: usize, count: usize) {
    room[place..place + count].fill(0);
}

fn header(name_length: usize, data_length: usize) -> [u8; 16] {
    let mut bytes = [0u8; 16];
    LittleEndian::write_u16(&mut bytes[4..], 16);
    LittleEndian::write_u16(&mut bytes[6..], name_length as u16);
    if data_length != 0 {
        LittleEndian::write_u16(&mut bytes[10..], (16 + name_length + gap(name_length)) as u16);
    }
    LittleEndian::write_u32(&mut bytes[12..], data_length as u32);
    bytes
}

// Writes the context into the room, from a place on.
fn put_context(room: &mut [u8], place: usize, name: &[u8], body: &[u8]) {
    let name_end = 16 + name.len();
    let zeros = gap(name.len());
    put(room, place, &header(name.len(), body.len()));
    put(room, place + 16, name);
    put_zeros(room, place + name_end, zeros);
    put(room, place + (name_end + zeros), body);
}

// Whether the distance from the last context, DataOffset and DataLength fit into their fields.
fn fits(distance: usize, name_length: usize, data_length: usize) -> bool {
    let data_place = 16 + name_length + gap(name_length);
    distance <= 0xFFFF_FFFF && data_place <= 0xFFFF && data_length <= 0xFFFF_FFFF
}

fn next_bytes(next: usize) -> [u8; 4] {
    let mut bytes = [0u8; 4];
    LittleEndian::write_u32(&mut bytes, next as u32);
    bytes
}

// Leads from the last context of the text, which is so many bytes long, to one more, and writes that
// one after the text.
fn write(room: &mut [u8], count: usize, last: usize, name: &[u8], body: &[u8]) {
    let zeros = gap(count);
    put(room, last, &next_bytes(count + zeros - last));
    put_zeros(room, count, zeros);
    put_context(room, count + zeros, name, body);
}

// Where the text ends that is the first `count` bytes of the room.
fn text_end(room: &[u8], count: u64) -> usize {
    if count < room.len() as u64 { count as usize } else { room.len() }
}

// Appends to the text that the room begins with.
fn append(room: &mut [u8], count: usize, name: &[u8], body: &[u8]) -> usize {
    let last = match last_place(&room[..count]) {
        Some(last) => last,
        None => return 0,
    };
    let place = count + gap(count);
    if !fits(place - last, name.len(), body.len()) {
        return 0;
    }
    let length = place + (16 + name.len() + gap(name.len()) + body.len());
    if length <= room.len() {
        write(room, count, last, name, body);
    }
    length
}

/// Appends a create context (MS-SMB2 2.2.13.2) of any name and data to the text of a request or a
/// response, which is the first `count` bytes of `room`, so the whole room at most: Next of the last
/// context leads to this one, which begins at the next multiple of 8, with zeros before it. Its data
/// begin at a multiple of 8 after its name; without data DataOffset is 0. A text of no bytes gets its
/// first context.
///
/// Gives the length of the new text; where `room` is shorter, nothing is written. Gives 0, and writes
/// nothing, where the text has a fault (`smblease_read_context` says which), or where Next, DataOffset
/// or DataLength don't fit into their fields: a name has at most 65,512 bytes.
pub fn smblease_append_context(room: &mut [u8], count: u64, name: &[u8], data: &[u8]) -> usize {
    let count = text_end(room, count);
    append(room, count, name, data)
}

/// The functions of this module for C.
pub mod exported {

    /// [`super::smblease_append_context`] for C.
    ///
    /// # Safety
    ///
    /// There are as many items at each pointer as the length after it says; nobody writes them meanwhile, nor reads them where
    /// they are written. A pointer is null only where the length is 0.
    #[unsafe(no_mangle)]
    pub unsafe extern "C" fn smblease_append_context(
        room: *mut u8,
        room_length: usize,
        count: u64,
        name: *const u8,
        name_length: usize,
        data: *const u8,
        data_length: usize,
    ) -> usize {
        // SAFETY: the caller's word.
        super::smblease_append_context(
            unsafe { std::c::slice_mut(room, room_length) },
            count,
            unsafe { std::c::slice(name, name_length) },
            unsafe { std::c::slice(data, data_length) },
        )
    }
}
