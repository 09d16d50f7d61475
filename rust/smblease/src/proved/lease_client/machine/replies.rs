// Made by tools/plain_rust from crates/lease_client/src/machine/replies.rt. Changes belong there.

use crate::proved::lease_client::entry::turn::Given;
use crate::proved::lease_client::machine::Machine;
use crate::proved::lease_client::machine::message::Message;
use crate::proved::lease_client::values::command::Answer;
use crate::proved::lease_state::{Bytes, FILE_LIMIT, FileId, FileNo, Memory, Reply, Status};
use crate::proved::lease_wire::{Notification, read_create_reply};

impl Machine {
    /// A reply comes from the server.
    ///
    /// # Errors
    ///
    /// `Memory` where there is none left, and never where the reply answers a Close or an acknowledgment.
    #[inline]
    pub fn take(&mut self, reply: Reply, given: &mut Given) -> Result<(), Memory> {
        match reply {
            Reply::Created { file, fid, contexts } => self.created(file, fid, &contexts, given),
            Reply::CreateFailed { file, status } => self.not_created(file, status, given),
            Reply::ReadDone { fid, bytes } => self.read_done(fid, bytes, given),
            Reply::ReadFailed { fid, status } => self.not_read(fid, status, given),
            Reply::WriteDone { number, .. } => self.written(number, given),
            Reply::WriteFailed { fid, number, status } => self.not_written(fid, number, status, given),
            Reply::Break(bytes) => self.broken(&bytes, given),
            Reply::Closed { .. } | Reply::CloseFailed { .. } | Reply::AckDone(_) | Reply::AckFailed { .. } => {
                self.quiet(given);
                Ok(())
            }
        }
    }

    // Nothing is answered, sent or noted.
    fn quiet(&self, given: &mut Given) {
        given.begin(Answer::Quiet);
    }

    fn created(&mut self, file: FileNo, file_id: FileId, contexts: &Bytes, given: &mut Given) -> Result<(), Memory> {
        if !self.knows(file) {
            self.quiet(given);
            return Ok(());
        }
        match read_create_reply(contexts.as_slice()) {
            Ok(answer) => self.tell(file, Message::Created(file_id, answer), given),
            Err(_) => {
                self.quiet(given);
                Ok(())
            }
        }
    }

    fn not_created(&mut self, file: FileNo, status: Status, given: &mut Given) -> Result<(), Memory> {
        if !self.knows(file) {
            self.quiet(given);
            return Ok(());
        }
        self.tell(file, Message::NotCreated(status), given)
    }

    // A Read of more bytes than a file may have is passed over.
    fn read_done(&mut self, file_id: FileId, bytes: Bytes, given: &mut Given) -> Result<(), Memory> {
        if bytes.len() > FILE_LIMIT {
            self.quiet(given);
            return Ok(());
        }
        match self.file_read_under(file_id) {
            Some(file) => self.tell(file, Message::Read(bytes), given),
            None => {
                self.quiet(given);
                Ok(())
            }
        }
    }

    fn not_read(&mut self, file_id: FileId, status: Status, given: &mut Given) -> Result<(), Memory> {
        match self.file_read_under(file_id) {
            Some(file) => self.tell(file, Message::NotRead(status), given),
            None => {
                self.quiet(given);
                Ok(())
            }
        }
    }

    fn written(&mut self, number: u64, given: &mut Given) -> Result<(), Memory> {
        match self.file_with_sent(number) {
            Some(file) => self.tell(file, Message::Written(number), given),
            None => {
                self.quiet(given);
                Ok(())
            }
        }
    }

    fn not_written(&mut self, file_id: FileId, number: u64, status: Status, given: &mut Given) -> Result<(), Memory> {
        match self.file_with_sent(number) {
            Some(file) => self.tell(file, Message::NotWritten(file_id, number, status), given),
            None => {
                self.quiet(given);
                Ok(())
            }
        }
    }

    // A notification that can't be read, or of another client's key, is passed over.
    fn broken(&mut self, bytes: &[u8; 44], given: &mut Given) -> Result<(), Memory> {
        match Notification::decode(bytes) {
            Ok((notice, _)) => match self.file_of_key(notice.key) {
                Some(file) => self.tell(file, Message::Broken(notice), given),
                None => {
                    self.quiet(given);
                    Ok(())
                }
            },
            Err(_) => {
                self.quiet(given);
                Ok(())
            }
        }
    }
}
