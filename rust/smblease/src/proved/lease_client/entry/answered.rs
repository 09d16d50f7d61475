// Made by tools/plain_rust from crates/lease_client/src/entry/answered.rt. Changes belong there.

use std::prelude::Vec;

use crate::proved::lease_client::entry::turn::{Given, Turn};
use crate::proved::lease_client::entry::{Entry, Live, Pending, Phase};
use crate::proved::lease_client::values::command::Answer;
use crate::proved::lease_client::values::note::{Note, Settlement};
use crate::proved::lease_client::values::shared_bytes::SharedBytes;
use crate::proved::lease_client::writes::push_settled;
use crate::proved::lease_client::writes::queue::Writes;
use crate::proved::lease_state::{Bytes, FileId, Memory, Status};

impl Entry {
    /// Whether the entry is live under the FileId, and a Read of it isn't answered.
    pub fn reads_under(&self, file_id: FileId) -> bool {
        match &self.phase {
            Phase::Live(live) => live.file_id == file_id && live.reads != 0,
            _ => false,
        }
    }

    /// Whether a sent write of this number isn't answered.
    pub fn has_sent(&self, number: u64) -> bool {
        self.sent.has(number)
    }

    /// A Read is answered with the file (MS-SMB2 3.2.5.11).
    ///
    /// # Errors
    ///
    /// `Memory` where there is none left for the bytes that the application sees.
    pub fn read_done(&mut self, bytes: Bytes, given: &mut Given) -> Result<(), Memory> {
        let Phase::Live(live) = &mut self.phase else {
            given.begin(Answer::Quiet);
            return Ok(());
        };
        live.read_done(&mut self.sent, bytes, given)
    }

    /// A Read is refused.
    ///
    /// # Errors
    ///
    /// `Memory` where there is none left for what is noted.
    pub fn not_read(&mut self, status: Status, given: &mut Given) -> Result<(), Memory> {
        let Entry { phase, sent } = self.take();
        match phase {
            Phase::Live(live) => {
                live.not_read(sent, status)?.put_into(self, given);
                Ok(())
            }
            phase => {
                self.put_back(phase, sent);
                given.begin(Answer::Quiet);
                Ok(())
            }
        }
    }

    /// The write of this number is done (3.2.5.12): a base has it from now on.
    ///
    /// # Errors
    ///
    /// `Memory` where there is none left for the base or the note.
    pub fn written(&mut self, number: u64, given: &mut Given) -> Result<(), Memory> {
        let write = self.sent.take_numbered(number);
        put_write(&mut self.phase, &write)?;
        given.begin(Answer::Quiet);
        given.notes.push(Note::Settled(number, Settlement::Done))?;
        Ok(())
    }

    /// The write of this number is refused.
    ///
    /// # Errors
    ///
    /// `Memory` where there is none left for the notes.
    pub fn not_written(&mut self, file_id: FileId, number: u64, status: Status, given: &mut Given) -> Result<(), Memory> {
        let Entry { phase, mut sent } = self.take();
        let alloc = sent.alloc();
        let _write = sent.take_numbered(number);
        let mut notes = Vec::new(alloc);
        notes.push(Note::Settled(number, Settlement::Failed))?;
        match phase {
            Phase::Live(live) => {
                let turn = live.not_written(sent, notes, file_id, status)?;
                turn.put_into(self, given);
                Ok(())
            }
            phase => {
                self.put_back(phase, sent);
                given.begin(Answer::Failed(status));
                given.notes = notes;
                Ok(())
            }
        }
    }
}

// A base, if there is one, has the write from now on.
fn put_write(phase: &mut Phase, write: &Option<Pending>) -> Result<(), Memory> {
    match (phase, write) {
        (Phase::Live(live), Some(write)) => live.put_write(write),
        _ => Ok(()),
    }
}

impl Live {
    // A base, if there is one, has the write from now on.
    fn put_write(&mut self, write: &Pending) -> Result<(), Memory> {
        self.file.change(&write.patch)
    }

    // The bytes become the base under R; the application sees its own unanswered writes in them.
    fn read_done(&mut self, sent: &mut Writes, bytes: Bytes, given: &mut Given) -> Result<(), Memory> {
        let base = SharedBytes::new(bytes)?;
        let seen = self.file.over(&base, sent)?;
        let seen = seen.try_copy(sent.alloc())?;
        self.reads = self.reads.saturating_sub(1);
        self.learn(base);
        given.begin(Answer::Bytes(seen, false));
        Ok(())
    }

    // Under R the bytes become the base.
    fn learn(&mut self, bytes: SharedBytes) {
        if self.belief.caches_reads() {
            self.file.learn(bytes);
        }
    }

    // Another status, or that of another FileId, leaves the open as it is.
    fn not_written(self, sent: Writes, notes: Vec<Note>, file_id: FileId, status: Status) -> Result<Turn, Memory> {
        if status == Status::FileClosed && self.file_id == file_id {
            return self.closed_by_server(sent, notes, status);
        }
        let requests = Vec::new(sent.alloc());
        Ok(Turn { entry: Entry::live(self, sent), answer: Answer::Failed(status), requests, notes })
    }

    fn not_read(self, sent: Writes, status: Status) -> Result<Turn, Memory> {
        if status == Status::FileClosed {
            let notes = Vec::new(sent.alloc());
            return self.closed_by_server(sent, notes, status);
        }
        let mut live = self;
        live.reads = live.reads.saturating_sub(1);
        Ok(Turn::still(Entry::live(live, sent), Answer::Failed(status)))
    }

    // The server has the open no more, and the unsent writes have failed. An entry that asked for more
    // waits for that create.
    // docs/DECISIONS.md: "FILE_CLOSED".
    fn closed_by_server(self, sent: Writes, notes: Vec<Note>, status: Status) -> Result<Turn, Memory> {
        let mut notes = notes;
        push_settled(&mut notes, Settlement::Failed, self.file.unsent())?;
        let phase = match self.handles.asking() {
            Some(asked) => Phase::Opening { access: asked.access, share: asked.share },
            None => Phase::Closed,
        };
        let requests = Vec::new(sent.alloc());
        Ok(Turn { entry: Entry { phase, sent }, answer: Answer::Failed(status), requests, notes })
    }
}
