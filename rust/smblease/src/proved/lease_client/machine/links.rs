// Made by tools/plain_rust from crates/lease_client/src/machine/links.rt. Changes belong there.

use std::prelude::Vec;

use crate::proved::lease_client::entry::Entry;
use crate::proved::lease_client::entry::turn::Given;
use crate::proved::lease_client::machine::Machine;
use crate::proved::lease_client::values::command::Answer;
use crate::proved::lease_state::{FileNo, LeaseKey, Memory};

/// What happens to a connection.
#[derive(Clone, Copy, Debug)]
pub enum Link {
    Lost,
    Made,
}

impl Link {
    fn is_made(self) -> bool {
        match self {
            Link::Lost => false,
            Link::Made => true,
        }
    }
}

impl Entry {
    /// The connection is lost or made for the entry of a file, whose key this is.
    ///
    /// # Errors
    ///
    /// `Memory` where there is none left.
    pub fn linked(&mut self, link: Link, file: FileNo, key: LeaseKey, given: &mut Given) -> Result<(), Memory> {
        match link {
            Link::Lost => self.noticed(given),
            Link::Made => self.connected(file, key, given),
        }
    }
}

impl Machine {
    /// The connection is lost or made: each entry has its turn, in the order of files.
    ///
    /// # Errors
    ///
    /// `Memory` where there is none left.
    pub fn link(&mut self, link: Link, given: &mut Given) -> Result<(), Memory> {
        let alloc = self.alloc();
        let mut requests = Vec::new(alloc);
        let mut notes = Vec::new(alloc);
        for index in 0..self.files() {
            let mut own = Given::new(alloc);
            self.link_file(FileNo(index + 1), link, &mut own)?;
            own.join(&mut requests, &mut notes)?;
        }
        self.set_online(link.is_made());
        given.answer = Answer::Quiet;
        given.requests = requests;
        given.notes = notes;
        Ok(())
    }

    fn link_file(&mut self, file: FileNo, link: Link, given: &mut Given) -> Result<(), Memory> {
        let key = self.key(file);
        let old = self.belief(file);
        self.link_entry(file, key, link, given)?;
        given.note_belief(file, old, self.belief(file))?;
        Ok(())
    }
}
