// Made by tools/plain_rust from crates/lease_client/src/entry/commands.rt. Changes belong there.

use crate::proved::lease_client::entry::handles::Handles;
use crate::proved::lease_client::entry::turn::Given;
use crate::proved::lease_client::entry::{Entry, Live, Pending, Phase};
use crate::proved::lease_client::requests::Terms;
use crate::proved::lease_client::values::command::{Answer, Command, Refusal};
use crate::proved::lease_client::values::note::Note;
use crate::proved::lease_client::values::shared_bytes::SharedBytes;
use crate::proved::lease_client::writes::queue::Writes;
use crate::proved::lease_state::{FileNo, LeaseKey, Memory, Patch, Request};

impl Entry {
    /// A command on the entry's file, whose key this is. A Write takes the next number of the client.
    ///
    /// # Errors
    ///
    /// `Memory` where there is none left, and never where the command is refused.
    pub fn commanded(
        &mut self,
        is_online: bool,
        key: LeaseKey,
        last_number: &mut u64,
        command: Command,
        given: &mut Given,
    ) -> Result<(), Memory> {
        match command {
            Command::Open { file, access, share, want, durable } => {
                let terms = Terms { access, share, want, durable };
                self.open(is_online, file, key, terms, given)
            }
            Command::Close { .. } => self.close(given),
            Command::Read { file } => self.read(file, given),
            Command::Write { file, patch } => self.write(file, last_number, patch, given),
            Command::Flush { .. } => self.flush(given),
        }
    }

    /// A Close: one handle less (profile).
    ///
    /// # Errors
    ///
    /// `Memory` where there is none left for what is sent, and never where the Close is refused.
    pub fn close(&mut self, given: &mut Given) -> Result<(), Memory> {
        let Phase::Live(live) = &mut self.phase else {
            given.begin(Answer::Refused(self.refusal()));
            return Ok(());
        };
        if live.is_parked() {
            given.begin(Answer::Refused(Refusal::NotOpen));
            return Ok(());
        }
        if live.is_ended_by_close(&self.sent) {
            live.give_up(&mut self.sent, Answer::Done, given)?;
            self.phase = Phase::Closed;
            return Ok(());
        }
        live.close(&self.sent, given);
        Ok(())
    }

    /// A Read of the whole file (profile).
    ///
    /// # Errors
    ///
    /// `Memory` where there is none left for the bytes or the request, and never where the Read is
    /// refused.
    pub fn read(&mut self, file: FileNo, given: &mut Given) -> Result<(), Memory> {
        let Phase::Live(live) = &mut self.phase else {
            given.begin(Answer::Refused(self.refusal()));
            return Ok(());
        };
        if live.is_parked() {
            given.begin(Answer::Refused(Refusal::NotOpen));
            return Ok(());
        }
        live.read(&mut self.sent, file, given)
    }

    /// A Write, which takes the next number of the client (profile).
    ///
    /// # Errors
    ///
    /// `Memory` where there is none left for what is kept, sent or noted, and never where the Write is
    /// refused.
    pub fn write(&mut self, file: FileNo, last_number: &mut u64, patch: Patch, given: &mut Given) -> Result<(), Memory> {
        let Phase::Live(live) = &mut self.phase else {
            given.begin(Answer::Refused(self.refusal()));
            return Ok(());
        };
        if live.is_parked() {
            given.begin(Answer::Refused(Refusal::NotOpen));
            return Ok(());
        }
        live.write(&mut self.sent, file, last_number, patch, given)
    }

    /// A Flush: unsent writes are sent (profile).
    ///
    /// # Errors
    ///
    /// `Memory` where there is none left for what is sent, and never where the Flush is refused.
    pub fn flush(&mut self, given: &mut Given) -> Result<(), Memory> {
        let Phase::Live(live) = &mut self.phase else {
            given.begin(Answer::Refused(self.refusal()));
            return Ok(());
        };
        if live.is_parked() {
            given.begin(Answer::Refused(Refusal::NotOpen));
            return Ok(());
        }
        live.flush(&mut self.sent, given)
    }
}

impl Live {
    // With no handle an entry accepts no command but an Open.
    fn is_parked(&self) -> bool {
        self.handles.count() == 0
    }

    // Whether a Close ends the open: the handle is the last one, nothing is unanswered or asked for, and the belief holds no
    // handles.
    fn is_ended_by_close(&self, sent: &Writes) -> bool {
        self.handles.count() <= 1
            && self.handles.asking().is_none()
            && !self.has_unanswered(sent)
            && !self.belief.caches_handles()
    }

    // The last handle stays while something is unanswered, or the entry asks for more. Without it the entry is parked.
    fn close(&mut self, sent: &Writes, given: &mut Given) {
        if self.handles.count() > 1 {
            self.handles = self.handles.with_less();
            given.begin(Answer::Done);
        } else if self.handles.asking().is_some() || self.has_unanswered(sent) {
            given.begin(Answer::Refused(Refusal::Busy));
        } else {
            self.handles = Handles::of(0);
            given.begin(Answer::Done);
        }
    }

    fn has_unanswered(&self, sent: &Writes) -> bool {
        self.reads != 0 || !sent.is_empty()
    }

    // A Read is answered from the cache, or sent.
    fn read(&mut self, sent: &mut Writes, file: FileNo, given: &mut Given) -> Result<(), Memory> {
        if !self.access.reads() {
            given.begin(Answer::Refused(Refusal::Denied));
            return Ok(());
        }
        if !self.belief.caches_reads() {
            return self.send_read(given);
        }
        match self.file.view(sent) {
            Some(seen) => cached(file, seen?, given),
            None => self.send_read(given),
        }
    }

    // docs/DECISIONS.md: "The order of refusals".
    fn send_read(&mut self, given: &mut Given) -> Result<(), Memory> {
        if self.handles.asking().is_some() {
            given.begin(Answer::Refused(Refusal::Busy));
            return Ok(());
        }
        if self.reads == u32::MAX {
            given.begin(Answer::Refused(Refusal::UsedUp));
            return Ok(());
        }
        given.begin(Answer::Waiting);
        given.requests.push(Request::Read { fid: self.file_id })?;
        self.reads += 1;
        Ok(())
    }

    // First the access, then the write's end, then the numbers that are left.
    fn write(
        &mut self,
        sent: &mut Writes,
        file: FileNo,
        last_number: &mut u64,
        patch: Patch,
        given: &mut Given,
    ) -> Result<(), Memory> {
        if !self.access.writes() {
            given.begin(Answer::Refused(Refusal::Denied));
            return Ok(());
        }
        if !patch.is_within_limit() {
            given.begin(Answer::Refused(Refusal::TooLong));
            return Ok(());
        }
        if *last_number == u64::MAX {
            given.begin(Answer::Refused(Refusal::UsedUp));
            return Ok(());
        }
        *last_number += 1;
        self.take_write(sent, file, *last_number, patch, given)
    }

    // Under W a write is buffered, and else it is sent.
    fn take_write(
        &mut self,
        sent: &mut Writes,
        file: FileNo,
        number: u64,
        patch: Patch,
        given: &mut Given,
    ) -> Result<(), Memory> {
        if self.belief.caches_writes() {
            self.buffer_write(file, number, patch, given)
        } else {
            self.send_write(sent, file, number, patch, given)
        }
    }

    fn buffer_write(&mut self, file: FileNo, number: u64, patch: Patch, given: &mut Given) -> Result<(), Memory> {
        given.begin(Answer::Done);
        let copy = patch.try_copy()?;
        given.notes.push(Note::Wrote(file, number, copy, true))?;
        self.file.buffer(Pending { number, patch, buffered: true })
    }

    fn send_write(&self, sent: &mut Writes, file: FileNo, number: u64, patch: Patch, given: &mut Given) -> Result<(), Memory> {
        given.begin(Answer::Waiting);
        let copy = patch.try_copy()?;
        given.notes.push(Note::Wrote(file, number, copy, false))?;
        let copy = patch.try_copy()?;
        given.requests.push(Request::Write { fid: self.file_id, number, patch: copy })?;
        sent.push(Pending { number, patch, buffered: false })?;
        Ok(())
    }

    fn flush(&mut self, sent: &mut Writes, given: &mut Given) -> Result<(), Memory> {
        let answer = if self.file.unsent().is_empty() { Answer::Done } else { Answer::Waiting };
        given.begin(answer);
        self.send_unsent(sent, &mut given.requests)?;
        Ok(())
    }
}

// The file as the application sees it, from the cache: it is answered and noted.
fn cached(file: FileNo, seen: SharedBytes, given: &mut Given) -> Result<(), Memory> {
    let copy = seen.try_copy(*given.notes.allocator())?;
    given.begin(Answer::Bytes(copy, true));
    given.notes.push(Note::CachedRead(file, seen))?;
    Ok(())
}
