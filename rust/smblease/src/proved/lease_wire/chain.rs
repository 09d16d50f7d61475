// Made by tools/plain_rust from crates/lease_wire/src/chain.rt. Changes belong there.

use crate::proved::lease_wire::fault::WireFault;
use byteorder::{ByteOrder, LittleEndian};

mod iterator;

pub use iterator::Contexts;

/// A create context where it stands in the text that it was read from.
#[derive(Clone, Copy, Debug, PartialEq, Eq)]
pub struct Context<'a> {
    /// Where the context begins, in bytes from the start of the text.
    pub place: usize,
    /// The context's name, of any length, as `RqLs`.
    pub name: &'a [u8],
    /// The context's data.
    pub body: &'a [u8],
}

/// The create contexts of a text (MS-SMB2 2.2.13.2, 2.2.14.2), in their order: an iterator that
/// borrows names and data from the text and allocates nothing. A text of no bytes has no context.
///
/// # Errors
///
/// The iterator gives a fault where the layout breaks (`Short`, `BadNext`, `BadName` or `BadData`),
/// and ends after its one fault.
pub fn contexts(bytes: &[u8]) -> Contexts<'_> {
    Contexts::from_start(bytes)
}

/// The fields of a create context's header (MS-SMB2 2.2.13.2), in bytes. Offsets count from the
/// context's start.
#[derive(Clone, Copy)]
pub(crate) struct Header {
    pub(crate) next: usize,
    pub(crate) name_offset: usize,
    pub(crate) name_length: usize,
    pub(crate) data_offset: usize,
    pub(crate) data_length: usize,
}

impl Header {
    /// The header that the bytes begin with.
    pub(crate) fn read(bytes: &[u8]) -> Header {
        Header {
            next: LittleEndian::read_u32(bytes) as usize,
            name_offset: usize::from(LittleEndian::read_u16(&bytes[4..])),
            name_length: usize::from(LittleEndian::read_u16(&bytes[6..])),
            data_offset: usize::from(LittleEndian::read_u16(&bytes[10..])),
            data_length: LittleEndian::read_u32(&bytes[12..]) as usize,
        }
    }

    // How long the context is, where so many bytes are left.
    fn size(&self, left: usize) -> usize {
        if self.next == 0 { left } else { self.next }
    }

    fn is_next_bad(&self, left: usize) -> bool {
        self.next != 0 && (self.next < 16 || (self.next % 8 != 0 || left < self.next))
    }

    fn is_name_bad(&self, left: usize) -> bool {
        self.name_offset < 16 || self.size(left) < self.name_offset + self.name_length
    }

    fn is_data_bad(&self, left: usize) -> bool {
        self.data_length != 0 && (self.data_offset < 16 || self.size(left) < self.data_offset + self.data_length)
    }

    /// The first test that the header fails, at a place with so many bytes left of the text.
    pub(crate) fn fault(&self, place: usize, left: usize) -> Option<WireFault> {
        if self.is_next_bad(left) {
            Some(WireFault::BadNext(place))
        } else if self.is_name_bad(left) {
            Some(WireFault::BadName(place))
        } else if self.is_data_bad(left) {
            Some(WireFault::BadData(place))
        } else {
            None
        }
    }
}

// The part of the bytes from an offset, so many bytes long; no bytes at all where it has none.
fn part(bytes: &[u8], offset: usize, count: usize) -> &[u8] {
    if count == 0 { &[] } else { &bytes[offset..offset + count] }
}

/// The context that the bytes begin with, at a place of the text, and its Next; or the first test
/// that it fails.
pub(crate) fn read_context<'a>(place: usize, bytes: &'a [u8]) -> Result<(Context<'a>, usize), WireFault> {
    if bytes.len() < 16 {
        return Err(WireFault::Short(place));
    }
    let header = Header::read(bytes);
    if let Some(fault) = header.fault(place, bytes.len()) {
        return Err(fault);
    }
    let context = Context {
        place,
        name: part(bytes, header.name_offset, header.name_length),
        body: part(bytes, header.data_offset, header.data_length),
    };
    Ok((context, header.next))
}

// The bytes from a place on: none where there are no more.
fn bytes_from(bytes: &[u8], place: usize) -> &[u8] {
    bytes.get(place..).unwrap_or(&[])
}

/// The context that begins at a place of the text, for those who keep the place themselves in the
/// stead of an iterator: with it its Next, from this context's start to the next one's, or 0 in
/// the last.
///
/// # Errors
///
/// The first test of the layout that it fails, with the place; `Short` where the text ends before
/// the place.
pub fn read_context_at(bytes: &[u8], place: usize) -> Result<(Context<'_>, usize), WireFault> {
    let rest = bytes_from(bytes, place);
    let (context, next) = read_context(place, rest)?;
    Ok((context, next))
}
