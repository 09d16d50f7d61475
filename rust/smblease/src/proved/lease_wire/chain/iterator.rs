// Made by tools/plain_rust from crates/lease_wire/src/chain/iterator.rt. Changes belong there.

use crate::proved::lease_wire::chain::{Context, read_context};
use crate::proved::lease_wire::fault::WireFault;
use std::iter::FusedIterator;

/// The create contexts of a text, in their order, as [`contexts`](crate::proved::lease_wire::contexts) reads them. After
/// its one fault, and after the last context, it gives `None` for good.
#[derive(Debug)]
pub struct Contexts<'a> {
    place: usize,
    // The text from `place` on where a context is due there.
    rest: Option<&'a [u8]>,
}

impl<'a> Contexts<'a> {
    /// The contexts of a text from its start on: none of the empty text.
    pub(crate) fn from_start(bytes: &'a [u8]) -> Contexts<'a> {
        Contexts { place: 0, rest: if bytes.is_empty() { None } else { Some(bytes) } }
    }

    /// The contexts of a text that begins at a place.
    pub(crate) fn from_place(place: usize, bytes: &'a [u8]) -> Contexts<'a> {
        Contexts { place, rest: if bytes.is_empty() { None } else { Some(bytes) } }
    }
}

impl<'a> Iterator for Contexts<'a> {
    type Item = Result<Context<'a>, WireFault>;

    fn next(&mut self) -> Option<Result<Context<'a>, WireFault>> {
        let bytes = self.rest?;
        match read_context(self.place, bytes) {
            Err(fault) => {
                self.rest = None;
                Some(Err(fault))
            }
            Ok((context, 0)) => {
                self.rest = None;
                Some(Ok(context))
            }
            Ok((context, next)) => {
                self.place += next;
                self.rest = Some(&bytes[next..]);
                Some(Ok(context))
            }
        }
    }

    // Each context takes sixteen bytes at least, and a fault may take none.
    fn size_hint(&self) -> (usize, Option<usize>) {
        match self.rest {
            Some(bytes) => (0, Some(bytes.len() / 16 + 1)),
            None => (0, Some(0)),
        }
    }
}

impl<'a> FusedIterator for Contexts<'a> {}
