// Made by tools/plain_rust from crates/lease_client/src/machine.rt. Changes belong there.

use std::prelude::Vec;

use crate::proved::lease_client::entry::Entry;
use crate::proved::lease_client::entry::turn::Given;
use crate::proved::lease_client::machine::links::Link;
use crate::proved::lease_client::machine::message::Message;
use crate::proved::lease_client::values::command::Command;
use crate::proved::lease_client::values::key::lease_key;
use crate::proved::lease_state::{FileId, FileNo, LeaseKey, LeaseState, Memory};
use std::alloc::Global;

pub mod calls;
pub mod links;
pub mod message;
pub mod replies;
pub mod searches;

/// What a client machine knows.
#[derive(Debug)]
pub struct Machine {
    guid: [u8; 16],
    /// From a connect to the next notice of a lost connection.
    is_online: bool,
    /// The number of the last write.
    last_number: u64,
    /// Those of the files from 1 on.
    entries: Vec<Entry>,
}

impl Machine {
    /// How many files there are.
    pub fn files(&self) -> u8 {
        self.entries.len() as u8
    }

    /// The machine of this ClientGuid with files from 1 to `files`, that was never connected.
    ///
    /// # Errors
    ///
    /// `Memory` where there is none left for the list of files, and never where there are no files.
    pub fn new(alloc: Global, guid: [u8; 16], files: u8) -> Result<Machine, Memory> {
        Ok(Machine { guid, is_online: false, last_number: 0, entries: closed_entries(alloc, files)? })
    }

    /// All is forgotten but the ClientGuid, which is this one: there are no files, and the client was never connected. Allocates
    /// nothing.
    pub fn forget(&mut self, guid: [u8; 16]) {
        self.guid = guid;
        self.is_online = false;
        self.last_number = 0;
        self.entries.clear();
    }

    /// The ClientGuid.
    pub fn guid(&self) -> [u8; 16] {
        self.guid
    }

    /// The allocator of the machine.
    pub fn alloc(&self) -> Global {
        *self.entries.allocator()
    }

    /// What the client believes of the lease of a file.
    pub fn belief(&self, file: FileNo) -> LeaseState {
        match self.entry(file) {
            Some(entry) => entry.belief(),
            None => LeaseState::NONE,
        }
    }

    // The entry of a file; `None` where there is no file of this number.
    fn entry(&self, file: FileNo) -> Option<&Entry> {
        let index = usize::from(file.0).checked_sub(1)?;
        self.entries.get(index)
    }

    /// Whether the file's open has this FileId and waits for a Read.
    pub fn is_read_under(&self, file: FileNo, file_id: FileId) -> bool {
        match self.entry(file) {
            Some(entry) => entry.reads_under(file_id),
            None => false,
        }
    }

    /// Whether the file has a sent write of this number that isn't answered.
    pub fn has_sent(&self, file: FileNo, number: u64) -> bool {
        match self.entry(file) {
            Some(entry) => entry.has_sent(number),
            None => false,
        }
    }

    /// Whether there is a file of this number.
    pub fn knows(&self, file: FileNo) -> bool {
        1 <= file.0 && usize::from(file.0) <= self.entries.len()
    }

    /// The client is connected from now on, or no longer.
    pub fn set_online(&mut self, is_online: bool) {
        self.is_online = is_online;
    }

    /// The key under which a file is opened.
    pub fn key(&self, file: FileNo) -> LeaseKey {
        lease_key(self.guid, file)
    }

    /// A command reaches the entry of a file.
    ///
    /// # Errors
    ///
    /// `Memory` where there is none left, and never where the command is refused.
    pub fn command_entry(&mut self, file: FileNo, key: LeaseKey, command: Command, given: &mut Given) -> Result<(), Memory> {
        let is_online = self.is_online;
        let mut number = self.last_number;
        let index = usize::from(file.0) - 1;
        self.entries[index].commanded(is_online, key, &mut number, command, given)?;
        self.last_number = number;
        Ok(())
    }

    /// A reply reaches the entry of a file.
    ///
    /// # Errors
    ///
    /// `Memory` where there is none left.
    pub fn tell_entry(&mut self, file: FileNo, key: LeaseKey, message: Message, given: &mut Given) -> Result<(), Memory> {
        let index = usize::from(file.0) - 1;
        self.entries[index].told(key, message, given)?;
        Ok(())
    }

    /// The connection is lost or made for the entry of a file.
    ///
    /// # Errors
    ///
    /// `Memory` where there is none left.
    pub fn link_entry(&mut self, file: FileNo, key: LeaseKey, link: Link, given: &mut Given) -> Result<(), Memory> {
        let index = usize::from(file.0) - 1;
        self.entries[index].linked(link, file, key, given)?;
        Ok(())
    }
}

// The entries of files that aren't open.
fn closed_entries(alloc: Global, files: u8) -> Result<Vec<Entry>, Memory> {
    let mut entries = Vec::with_capacity(alloc, usize::from(files))?;
    for _ in 0..files {
        entries.push(Entry::closed(alloc))?;
    }
    Ok(entries)
}
