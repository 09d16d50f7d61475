// Made by tools/plain_rust from crates/capture_walk/src/frame.rt. Changes belong there.

use crate::proved::capture_walk::note::{Note, Seen};
use crate::proved::capture_walk::reading::{closed_behind, ids_of, note_of};
use crate::proved::capture_walk::walk::Walk;
use smblease::proved::capture_wire::Message;
use smblease::proved::lease_state::Memory;

/// Where a capture has messages that were sent as one.
#[derive(Clone, Copy, Debug, PartialEq, Eq)]
pub struct Frame {
    /// The number of its first message among all messages of the capture; the others count on.
    pub number: u64,
    /// The number of its connection.
    pub connection: u64,
    /// The number of the server's address and port.
    pub server: u64,
    /// The first position at which it can have been sent.
    pub earliest: u64,
    /// The last one: that at which the capture has it, or the one before it if a client sent it.
    pub latest: u64,
}

impl Frame {
    /// What is seen where the frame is.
    pub fn seen<'a>(&self, number: u64, note: Note<'a>) -> Seen<'a> {
        Seen { number, connection: self.connection, server: self.server, earliest: self.earliest, latest: self.latest, note }
    }
}

impl Walk {
    /// Takes the messages of a frame.
    ///
    /// # Errors
    ///
    /// `Memory` where there is none left; the walk then can't go on.
    pub fn take_frame(&mut self, frame: &Frame, messages: &[Message<'_>]) -> Result<(), Memory> {
        let mut number = frame.number;
        let mut before = None;
        for (index, message) in messages.iter().enumerate() {
            let ids = ids_of(message, before);
            let note = note_of(message, ids, closed_behind(&messages[index + 1..]));
            self.take(&frame.seen(number, note))?;
            number += 1;
            before = Some(ids);
        }
        Ok(())
    }
}
