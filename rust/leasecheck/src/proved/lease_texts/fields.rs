// Made by tools/plain_rust from crates/lease_texts/src/fields.rt. Changes belong there.

use crate::proved::lease_texts::fault::LineFault;
use crate::proved::lease_texts::first::{after_word, first_ordinal};
use crate::proved::lease_texts::pieces::split_first;
use crate::proved::lease_texts::status::{GivenStatus, status_in};
use crate::proved::lease_texts::words::{
    access_in, bytes_in, content_in, guid_in, number_in, offset_in, outcome_in, rules_in, share_in, sized_in, state_in, way_in,
};
use smblease::proved::lease_client::Settlement;
use smblease::proved::lease_facts::is;
use smblease::proved::lease_state::{Access, Bytes, ClientNo, Content, FileId, FileNo, LeaseKey, LeaseState, Rules, Share};
use std::alloc::Global;

/// The fields of a line that are left to be read, with one space between two of them. Fields may be empty, and a
/// line of no bytes has one.
pub struct Fields<'a> {
    // The line from the next field on; none where that was the last one.
    rest: Option<&'a [u8]>,
}

impl<'a> Fields<'a> {
    /// The fields of a line.
    pub fn of(line: &'a [u8]) -> Fields<'a> {
        Fields { rest: Some(line) }
    }

    /// Whether no field is left.
    pub fn is_done(&self) -> bool {
        match self.rest {
            None => true,
            Some(_) => false,
        }
    }

    /// The next field.
    pub fn next(&mut self) -> Result<&'a [u8], LineFault> {
        let Some(rest) = self.rest else {
            return Err(LineFault::Refused);
        };
        let (field, behind) = split_first(b' ', rest);
        self.rest = behind;
        Ok(field)
    }

    /// Takes the next field, where it is this word.
    #[inline(always)]
    pub(crate) fn takes(&mut self, word: &[u8]) -> bool {
        let Some(rest) = self.rest else {
            return false;
        };
        let Some(behind) = after_word(rest, word) else {
            return false;
        };
        self.rest = behind;
        true
    }

    /// Refuses a line of which a field is left.
    pub fn end(&self) -> Result<(), LineFault> {
        if self.is_done() { Ok(()) } else { Err(LineFault::Refused) }
    }

    // A number from 1 to 255.
    #[inline(always)]
    fn ordinal(&mut self) -> Result<u8, LineFault> {
        let Some(rest) = self.rest else {
            return Err(LineFault::Refused);
        };
        let Some((number, behind)) = first_ordinal(rest) else {
            return Err(LineFault::Refused);
        };
        self.rest = behind;
        Ok(number)
    }

    /// The number of a client, from 1 to 255.
    #[inline(always)]
    pub fn client(&mut self) -> Result<ClientNo, LineFault> {
        Ok(ClientNo(self.ordinal()?))
    }

    /// The number of a file, from 1 to 255.
    #[inline(always)]
    pub fn file(&mut self) -> Result<FileNo, LineFault> {
        Ok(FileNo(self.ordinal()?))
    }

    /// A FileId, of at most 64 bits.
    pub fn file_id(&mut self) -> Result<FileId, LineFault> {
        let number = number_in(self.next()?).ok_or(LineFault::Refused)?;
        Ok(FileId(number))
    }

    /// A decimal number of at most 64 bits, without sign and without leading zeros.
    pub fn number(&mut self) -> Result<u64, LineFault> {
        number_in(self.next()?).ok_or(LineFault::Refused)
    }

    /// A number of at most 32 bits.
    pub fn offset(&mut self) -> Result<u32, LineFault> {
        offset_in(self.next()?).ok_or(LineFault::Refused)
    }

    /// Bytes as hexadecimal digits of either case, at least two, or a hyphen for none.
    pub fn bytes(&mut self, alloc: Global) -> Result<Bytes, LineFault> {
        bytes_in(alloc, self.next()?)
    }

    /// Such bytes, no more than a file holds.
    pub fn file_bytes(&mut self, alloc: Global) -> Result<Bytes, LineFault> {
        content_in(alloc, self.next()?)
    }

    /// The content of a file.
    pub fn content(&mut self, alloc: Global) -> Result<Content, LineFault> {
        let content = Content::new(self.file_bytes(alloc)?.into_vec());
        content.ok().ok_or(LineFault::Refused)
    }

    /// The letters of a state in the order R, W, H, or `none`. Mostly they end the line.
    pub fn state(&mut self) -> Result<LeaseState, LineFault> {
        if let Some(rest) = self.rest
            && let Some(state) = state_in(rest)
        {
            self.rest = None;
            return Ok(state);
        }
        state_in(self.next()?).ok_or(LineFault::Refused)
    }

    /// What an open may do: `r`, `w` or `rw`.
    pub fn access(&mut self) -> Result<Access, LineFault> {
        access_in(self.next()?).ok_or(LineFault::Refused)
    }

    /// The rules of a server: `by-client` or `by-key`, a comma, and `as-free` or `whole`.
    pub fn rules(&mut self) -> Result<Rules, LineFault> {
        rules_in(self.next()?).ok_or(LineFault::Refused)
    }

    /// What an open lets others do: `-`, `r`, `w` or `rw`.
    pub fn share(&mut self) -> Result<Share, LineFault> {
        share_in(self.next()?).ok_or(LineFault::Refused)
    }

    /// The way of a write: true where it is buffered.
    pub fn way(&mut self) -> Result<bool, LineFault> {
        way_in(self.next()?).ok_or(LineFault::Refused)
    }

    /// What became of a write.
    pub fn outcome(&mut self) -> Result<Settlement, LineFault> {
        outcome_in(self.next()?).ok_or(LineFault::Refused)
    }

    /// A GUID as 32 digits, hyphenated, in braces or as a URN.
    pub fn guid(&mut self) -> Result<[u8; 16], LineFault> {
        guid_in(self.next()?).ok_or(LineFault::Refused)
    }

    /// An acknowledgment's 36 bytes.
    pub fn message(&mut self) -> Result<[u8; 36], LineFault> {
        sized_in(self.next()?).ok_or(LineFault::Refused)
    }

    /// A lease key, as the 32 digits of its bytes.
    pub fn key(&mut self) -> Result<LeaseKey, LineFault> {
        let key = sized_in(self.next()?).ok_or(LineFault::Refused)?;
        Ok(LeaseKey(key))
    }

    /// A lease break notification's 44 bytes.
    pub fn notification(&mut self) -> Result<[u8; 44], LineFault> {
        sized_in(self.next()?).ok_or(LineFault::Refused)
    }

    /// A status, by its name or by the eight hexadecimal digits of its number.
    pub fn status(&mut self) -> Result<GivenStatus, LineFault> {
        status_in(self.next()?).ok_or(LineFault::Refused)
    }

    /// Whether the word of a durable open is there; no other word may stand in its place.
    pub fn durable(&mut self) -> Result<bool, LineFault> {
        if self.is_done() {
            return Ok(false);
        }
        if is(self.next()?, b"durable") { Ok(true) } else { Err(LineFault::Refused) }
    }
}
