// Made by tools/plain_rust from crates/lease_reasons/src/messages.rt. Changes belong there.

use std::prelude::Vec;

use smblease::proved::lease_facts::Fact;
use smblease::proved::lease_state::{ClientNo, Memory};
use std::alloc::Global;

/// The messages to a client since it joined last: where they were sent, and how many were taken.
#[derive(Debug)]
pub struct Messages {
    sent: Vec<usize>,
    taken: usize,
}

impl Messages {
    /// Those that facts report.
    ///
    /// # Errors
    ///
    /// `Memory` where there is none left for the list.
    pub fn of(alloc: Global, facts: &[Fact], client: ClientNo) -> Result<Messages, Memory> {
        let mut messages = Messages { sent: Vec::new(alloc), taken: 0 };
        for (index, fact) in facts.iter().enumerate() {
            messages.note(client, index + 1, fact)?;
        }
        Ok(messages)
    }

    // Takes note of the fact at this place.
    fn note(&mut self, client: ClientNo, place: usize, fact: &Fact) -> Result<(), Memory> {
        match fact {
            Fact::Joined(other) if *other == client => {
                self.sent.clear();
                self.taken = 0;
            }
            Fact::Sent(other) if *other == client => self.sent.push(place)?,
            Fact::Took(other) if *other == client => self.taken += 1,
            _ => {}
        }
        Ok(())
    }

    /// How many were sent.
    pub fn sent(&self) -> usize {
        self.sent.len()
    }

    /// How many were taken.
    pub fn taken(&self) -> usize {
        self.taken
    }

    /// Where the one was sent that was taken last.
    pub fn last_sent(&self) -> Option<usize> {
        let index = self.taken.checked_sub(1)?;
        self.sent.get(index).copied()
    }
}
