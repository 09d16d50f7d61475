// Made by tools/plain_rust from crates/lease_c/src/context.rt. Changes belong there.

use crate::proved::lease_c::fault::LeaseFault;
use byteorder::{ByteOrder, LittleEndian};
use smblease::proved::lease_wire::read_context_at;

/// A create context, by the places of its parts in the text that it was read from:
/// `struct smblease_context`.
#[repr(C)]
#[derive(Clone, Copy, Debug, PartialEq, Eq)]
pub struct LeaseContext {
    /// Where the name begins, in bytes from the start of the text.
    pub name_place: u64,
    pub name_length: u64,
    /// Where the data begin, in bytes from the start of the text; 0 where there are none.
    pub data_place: u64,
    pub data_length: u64,
    /// Where the next context begins; 0 where this one is the last.
    pub next_place: u64,
}

// A place after another one, or 0 where the offset stands for nothing.
fn place_behind(place: usize, offset: u32, is_there: bool) -> u64 {
    if is_there { place as u64 + u64::from(offset) } else { 0 }
}

// The fields of the context that the bytes from a place on begin with.
fn context_from(place: usize, bytes: &[u8]) -> LeaseContext {
    let next = LittleEndian::read_u32(bytes);
    let name_offset = LittleEndian::read_u16(&bytes[4..]);
    let name_length = LittleEndian::read_u16(&bytes[6..]);
    let data_offset = LittleEndian::read_u16(&bytes[10..]);
    let data_length = LittleEndian::read_u32(&bytes[12..]);
    LeaseContext {
        name_place: place as u64 + u64::from(name_offset),
        name_length: u64::from(name_length),
        data_place: place_behind(place, u32::from(data_offset), data_length != 0),
        data_length: u64::from(data_length),
        next_place: place_behind(place, next, next != 0),
    }
}

// The bytes of the text from a place on.
fn bytes_from(text: &[u8], place: usize) -> &[u8] {
    &text[place..]
}

/// Reads the create context that begins at a place of the text of a request or a response (MS-SMB2
/// 2.2.13.2) into `out`. The first one begins at 0; a text of no bytes has none.
///
/// Returns the first test of the layout that the context fails, and then `out` is as it was.
pub fn smblease_read_context(text: &[u8], place: u64, out: &mut LeaseContext) -> LeaseFault {
    let start = place as usize;
    match read_context_at(text, start) {
        Ok(_) => {
            *out = context_from(start, bytes_from(text, start));
            LeaseFault::none()
        }
        Err(fault) => LeaseFault::of(fault),
    }
}

// Where the first context of this name begins.
fn place_of(text: &[u8], name: &[u8]) -> Option<usize> {
    if text.is_empty() {
        return None;
    }
    let mut place = 0;
    loop {
        let (context, next) = match read_context_at(text, place) {
            Ok(read) => read,
            Err(_) => return None,
        };
        if context.name == name {
            return Some(place);
        }
        if next == 0 {
            return None;
        }
        place += next;
    }
}

/// Reads the first create context of this name, in the text of a request or a response (MS-SMB2
/// 2.2.13.2), into `out`, and returns whether there is one. Where the text has a fault, only what
/// stands before it is looked at. Where there is none, `out` is as it was.
pub fn smblease_find_context(text: &[u8], name: &[u8], out: &mut LeaseContext) -> bool {
    match place_of(text, name) {
        Some(place) => {
            let _read = smblease_read_context(text, place as u64, out);
            true
        }
        None => false,
    }
}

/// The functions of this module for C.
pub mod exported {
    use super::{LeaseContext, LeaseFault};

    /// [`super::smblease_read_context`] for C.
    ///
    /// # Safety
    ///
    /// There are as many items at each pointer as the length after it says; nobody writes them meanwhile, nor reads them where
    /// they are written. A pointer is null only where the length is 0.
    #[unsafe(no_mangle)]
    pub unsafe extern "C" fn smblease_read_context(
        text: *const u8,
        text_length: usize,
        place: u64,
        out: &mut LeaseContext,
    ) -> LeaseFault {
        // SAFETY: the caller's word.
        super::smblease_read_context(unsafe { std::c::slice(text, text_length) }, place, out)
    }

    /// [`super::smblease_find_context`] for C.
    ///
    /// # Safety
    ///
    /// There are as many items at each pointer as the length after it says; nobody writes them meanwhile, nor reads them where
    /// they are written. A pointer is null only where the length is 0.
    #[unsafe(no_mangle)]
    pub unsafe extern "C" fn smblease_find_context(
        text: *const u8,
        text_length: usize,
        name: *const u8,
        name_length: usize,
        out: &mut LeaseContext,
    ) -> bool {
        // SAFETY: the caller's word.
        super::smblease_find_context(
            unsafe { std::c::slice(text, text_length) },
            unsafe { std::c::slice(name, name_length) },
            out,
        )
    }
}
