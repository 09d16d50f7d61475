// Made by tools/plain_rust from crates/capture_texts/src/walking.rt. Changes belong there.

use crate::proved::capture_walk::{Frame, FrameFault, Note, Walk, read_frame};
use smblease::proved::capture_wire::Message;
use smblease::proved::lease_state::Memory;
use std::alloc::Global;

/// A walk through the frames of a capture, which numbers what it sees from 0 on.
#[derive(Debug)]
pub(crate) struct Walking {
    pub(crate) walk: Walk,
    /// The number of what is seen next.
    pub(crate) number: u64,
}

// A number and so many more.
fn number_after(number: u64, count: usize) -> Result<u64, Memory> {
    number.checked_add(count as u64).ok_or(Memory)
}

impl Walking {
    /// Before any frame. Allocates nothing.
    pub(crate) fn new(alloc: Global) -> Walking {
        Walking { walk: Walk::new(alloc), number: 0 }
    }

    fn take_messages(&mut self, frame: &Frame, messages: &[Message<'_>]) -> Result<(), Memory> {
        let number = number_after(frame.number, messages.len())?;
        self.walk.take_frame(frame, messages)?;
        self.number = number;
        Ok(())
    }

    /// Takes a note where a frame, or a line without one, is.
    pub(crate) fn take_note(&mut self, frame: &Frame, note: Note<'_>) -> Result<(), Memory> {
        let number = number_after(self.number, 1)?;
        self.walk.take(&frame.seen(self.number, note))?;
        self.number = number;
        Ok(())
    }

    /// Takes note that a client took a frame, if it did so there.
    pub(crate) fn note_taken(&mut self, frame: &Frame, is_taken: bool) -> Result<(), Memory> {
        if is_taken {
            self.take_note(frame, Note::Taken)?;
        }
        Ok(())
    }

    /// Takes the messages of a frame, or that they can't be read. Says whether they are.
    pub(crate) fn take_frame(&mut self, alloc: Global, frame: &Frame, bytes: &[u8]) -> Result<bool, Memory> {
        match read_frame(alloc, bytes) {
            Ok(messages) => {
                self.take_messages(frame, &messages)?;
                Ok(true)
            }
            Err(FrameFault::Memory) => Err(Memory),
            Err(_) => {
                self.take_note(frame, Note::Gap)?;
                Ok(false)
            }
        }
    }
}
