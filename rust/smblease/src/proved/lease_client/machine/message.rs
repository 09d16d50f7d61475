// Made by tools/plain_rust from crates/lease_client/src/machine/message.rt. Changes belong there.

use crate::proved::lease_client::entry::Entry;
use crate::proved::lease_client::entry::turn::Given;
use crate::proved::lease_state::{Bytes, FileId, LeaseKey, Memory, Status};
use crate::proved::lease_wire::{CreateAnswer, Notification};

/// A reply of the server that reached an entry.
#[derive(Debug)]
pub enum Message {
    Created(FileId, CreateAnswer),
    NotCreated(Status),
    Read(Bytes),
    NotRead(Status),
    Written(u64),
    NotWritten(FileId, u64, Status),
    Broken(Notification),
}

impl Entry {
    /// A reply reaches the entry of a file, whose key this is.
    ///
    /// # Errors
    ///
    /// `Memory` where there is none left.
    pub fn told(&mut self, key: LeaseKey, message: Message, given: &mut Given) -> Result<(), Memory> {
        match message {
            Message::Created(file_id, answer) => self.created(key, file_id, &answer, given),
            Message::NotCreated(status) => self.not_created(status, given),
            Message::Read(bytes) => self.read_done(bytes, given),
            Message::NotRead(status) => self.not_read(status, given),
            Message::Written(number) => self.written(number, given),
            Message::NotWritten(file_id, number, status) => self.not_written(file_id, number, status, given),
            Message::Broken(notice) => self.broken(&notice, given),
        }
    }
}
