// Made by tools/plain_rust from crates/lease_client/src/entry/turn.rt. Changes belong there.

use std::prelude::Vec;

use crate::proved::lease_client::entry::Entry;
use crate::proved::lease_client::values::command::Answer;
use crate::proved::lease_client::values::note::Note;
use crate::proved::lease_client::values::state::is_same;
use crate::proved::lease_state::{FileNo, LeaseState, Memory, Request};
use std::alloc::Global;

/// What a call does to one entry: the entry after it, and what is answered, sent and noted, but for
/// the note of its belief.
#[derive(Debug)]
pub struct Turn {
    pub entry: Entry,
    pub answer: Answer,
    pub requests: Vec<Request>,
    pub notes: Vec<Note>,
}

/// What a call of a client gives out (profile): the answer to the application, the requests to be sent to the server and the
/// notes for the program, each in order. A call that is passed it puts there what it gives out, whatever was there. Its lists
/// keep their memory from call to call.
// docs/DECISIONS.md: "Calls in place give out into a value of their caller".
#[derive(Debug)]
pub struct Given {
    pub answer: Answer,
    pub requests: Vec<Request>,
    pub notes: Vec<Note>,
}

impl Given {
    /// Nothing is given out yet (profile): the answer is `Quiet`, and nothing is sent or noted. Allocates nothing.
    pub fn new(alloc: Global) -> Given {
        Given { answer: Answer::Quiet, requests: Vec::new(alloc), notes: Vec::new(alloc) }
    }

    /// An answer in place of what was there, with nothing sent or noted yet. Allocates nothing.
    #[inline(always)]
    pub(crate) fn begin(&mut self, answer: Answer) {
        self.answer = answer;
        self.requests.clear();
        self.notes.clear();
    }

    /// Its requests and notes go after those that there are.
    ///
    /// # Errors
    ///
    /// `Memory` where there is none left for them.
    pub(crate) fn join(self, requests: &mut Vec<Request>, notes: &mut Vec<Note>) -> Result<(), Memory> {
        let Given { requests: mut sent, notes: mut noted, .. } = self;
        requests.append(&mut sent)?;
        notes.append(&mut noted)?;
        Ok(())
    }

    /// Notes what is believed of the file's lease, after the other notes, unless that was believed
    /// before.
    ///
    /// # Errors
    ///
    /// `Memory` where there is none left for that note, and never where the belief is the old one.
    pub(crate) fn note_belief(&mut self, file: FileNo, old: LeaseState, new: LeaseState) -> Result<(), Memory> {
        if !is_same(old, new) {
            self.notes.push(Note::Believes(file, new))?;
        }
        Ok(())
    }
}

impl Turn {
    /// The entry as it is, with an answer and nothing sent or noted. Allocates nothing.
    pub fn still(entry: Entry, answer: Answer) -> Turn {
        let alloc = entry.alloc();
        Turn { entry, answer, requests: Vec::new(alloc), notes: Vec::new(alloc) }
    }

    /// The entry is put into its place, and the rest is given out.
    pub fn put_into(self, place: &mut Entry, given: &mut Given) {
        let Turn { entry, answer, requests, notes } = self;
        *place = entry;
        given.answer = answer;
        put_list(requests, &mut given.requests);
        put_list(notes, &mut given.notes);
    }
}

// A list takes the place of another one, of which an empty list keeps the memory.
fn put_list<T>(list: Vec<T>, place: &mut Vec<T>) {
    if list.is_empty() {
        place.clear();
    } else {
        *place = list;
    }
}
