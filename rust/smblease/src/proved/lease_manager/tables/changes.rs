// Made by tools/plain_rust from crates/lease_manager/src/tables/changes.rt. Changes belong there.

use std::prelude::Vec;

use crate::proved::lease_manager::tables::Tables;
use crate::proved::lease_manager::tables::opens::Opens;
use crate::proved::lease_manager::tables::queues::Queues;
use crate::proved::lease_manager::tables::still::{forget_files, forget_for, forget_home};
use crate::proved::lease_manager::tables::summaries::Summaries;
use crate::proved::lease_manager::tables::waiting::Waiting;
use crate::proved::lease_manager::values::closing::Closing;
use crate::proved::lease_manager::values::key::LeaseName;
use crate::proved::lease_manager::values::lease::HeldLease;
use crate::proved::lease_manager::values::number::{ClientNo, FileNo, Tag};
use crate::proved::lease_manager::values::open::OpenEntry;
use crate::proved::lease_manager::values::request::Held;
use crate::proved::lease_state::{FileId, Memory};
use std::alloc::Global;
use std::collections::BTreeSet;

impl Tables {
    /// The lease of a key that an open has becomes this one.
    ///
    /// # Errors
    ///
    /// `Memory` where there is none left for the file's summary; no open is left then.
    pub fn put_lease(&mut self, key: LeaseName, lease: HeldLease) -> Result<(), Memory> {
        let alloc = self.alloc();
        let settled = keeps_settled(self.settled, &self.opens, &self.summaries, alloc, key, lease);
        forget_home(&mut self.waiting, &self.summaries, key);
        match self.summaries.put(key, lease) {
            Ok(()) => {
                self.settled = settled;
                Ok(())
            }
            Err(memory) => {
                self.waiting.clear();
                forget_opens(&mut self.opens, &mut self.summaries, alloc);
                Err(memory)
            }
        }
    }

    /// Closes opens; with its last open a lease is gone (MS-SMB2 3.3.5.10). The FileIds of those that were closed.
    ///
    /// # Errors
    ///
    /// `Memory` where there is none left for the list of FileIds.
    pub fn close(&mut self, closing: Closing) -> Result<Vec<FileId>, Memory> {
        let alloc = self.alloc();
        let ids = self.opens.closed(alloc, &closing, &self.summaries)?;
        if ids.is_empty() {
            return Ok(ids);
        }
        forget_files(&mut self.waiting, &self.opens, &ids);
        close_all(&mut self.opens, &mut self.summaries, &ids);
        Ok(ids)
    }

    /// The request waits on the file, after those that wait there.
    ///
    /// # Errors
    ///
    /// `Memory` where there is none left for the file's queue.
    pub fn hold(&mut self, file: FileNo, one: Held) -> Result<(), Memory> {
        let alloc = self.alloc();
        self.queues.push(alloc, file, one)?;
        Ok(())
    }

    /// The request at this place of the file's queue no longer waits.
    pub fn release(&mut self, file: FileNo, place: usize) {
        self.waiting.forget(file);
        self.queues.remove(file, place);
    }

    /// The requests of the client under the tag no longer wait on the file.
    pub fn withdraw(&mut self, file: FileNo, client: ClientNo, tag: Tag) {
        self.waiting.forget(file);
        self.queues.withdraw(file, client, tag);
    }

    /// The client's connection and its requests that wait are forgotten.
    ///
    /// # Errors
    ///
    /// `Memory` where there is none left for the list of files; nothing has changed then.
    pub fn forget(&mut self, client: ClientNo) -> Result<(), Memory> {
        let alloc = self.alloc();
        let files = self.queues.files(alloc)?;
        forget_connection(&mut self.present, client);
        forget_queues(&mut self.queues, &mut self.waiting, &files, client);
        Ok(())
    }

    /// The client's requests under these tags wait no longer, and the client stays connected.
    ///
    /// # Errors
    ///
    /// `Memory` where there is none left for the list of files; nothing has changed then.
    pub fn leave(&mut self, client: ClientNo, tags: &[Tag]) -> Result<(), Memory> {
        let alloc = self.alloc();
        let files = self.queues.files(alloc)?;
        leave_queues(&mut self.queues, &mut self.waiting, &files, client, tags);
        Ok(())
    }

    /// The timer of the key ran out.
    ///
    /// # Errors
    ///
    /// `Memory` where there is none left for the set of such keys; nothing has changed then.
    pub fn expire(&mut self, key: LeaseName) -> Result<(), Memory> {
        self.expired.insert(self.alloc, key.client, key.bytes)
    }

    /// The FileId given last; 0 before the first.
    pub fn last_id(&self) -> u64 {
        self.last_id
    }

    /// One more open, whose client is there, whose FileId comes after that given last, and whose key has no open on another
    /// file. The lease of its key becomes this one.
    ///
    /// # Errors
    ///
    /// `Memory` where there is none left; no open is left then.
    pub fn open(&mut self, one: OpenEntry, lease: HeldLease) -> Result<(), Memory> {
        let alloc = self.alloc();
        let settled = opens_settled(self.settled, &self.opens, &self.summaries, alloc, &one, lease);
        forget_for(&mut self.waiting, &self.queues, &one);
        self.last_id = one.file_id.0;
        match add(&mut self.opens, &mut self.summaries, alloc, one, lease) {
            Ok(()) => {
                self.settled = settled;
                Ok(())
            }
            Err(memory) => {
                self.waiting.clear();
                forget_opens(&mut self.opens, &mut self.summaries, alloc);
                Err(memory)
            }
        }
    }

    /// This FileId was given last, where none after it was.
    pub fn raise_last_id(&mut self, last: FileId) {
        self.last_id = last.0;
    }

    /// The open of this FileId waits for its client. No lease is breaking.
    ///
    /// # Errors
    ///
    /// `Memory` where there is none left for it; no open is left then.
    pub fn disconnect(&mut self, fid: FileId) -> Result<(), Memory> {
        let alloc = self.alloc();
        self.waiting.clear();
        match self.opens.disconnect(alloc, fid) {
            Ok(()) => Ok(()),
            Err(memory) => {
                forget_opens(&mut self.opens, &mut self.summaries, alloc);
                Err(memory)
            }
        }
    }

    /// The open of this FileId is connected again.
    ///
    /// # Errors
    ///
    /// `Memory` where there is none left for it; nothing has changed then.
    pub fn connect_again(&mut self, fid: FileId) -> Result<(), Memory> {
        let alloc = self.alloc();
        self.opens.connect_again(alloc, fid)?;
        self.waiting.clear();
        Ok(())
    }
}

/// No open is left: so a call ends that finds no memory, and after which its manager forgets all.
// docs/DECISIONS.md: "No memory within a call of the server".
pub fn forget_opens(opens: &mut Opens, summaries: &mut Summaries, alloc: Global) {
    *opens = Opens::new(alloc);
    *summaries = Summaries::new(alloc);
}

/// The opens of these FileIds are no longer connected.
pub fn disconnect_all(opens: &mut Opens, alloc: Global, ids: &[FileId]) -> Result<(), Memory> {
    for id in ids {
        opens.disconnect(alloc, *id)?;
    }
    Ok(())
}

/// Closes the opens of these FileIds.
pub fn close_all(opens: &mut Opens, summaries: &mut Summaries, ids: &[FileId]) {
    for id in ids {
        close_one(opens, summaries, *id);
    }
}

// Closes the open of this FileId, if there is one.
fn close_one(opens: &mut Opens, summaries: &mut Summaries, id: FileId) {
    match opens.take(id) {
        Some(one) => summaries.lose(&one),
        None => {}
    }
}

// Adds an open, with the lease of its key.
fn add(opens: &mut Opens, summaries: &mut Summaries, alloc: Global, one: OpenEntry, lease: HeldLease) -> Result<(), Memory> {
    summaries.gain(alloc, &one, lease)?;
    opens.push(alloc, one)?;
    Ok(())
}

// The requests of the client no longer wait on these files.
fn forget_queues(queues: &mut Queues, waiting: &mut Waiting, files: &[FileNo], client: ClientNo) {
    for file in files {
        forget_queue(queues, waiting, *file, client);
    }
}

// The same on one file. Where none of them waits, what is known of the others stays.
fn forget_queue(queues: &mut Queues, waiting: &mut Waiting, file: FileNo, client: ClientNo) {
    if queues.has_of(file, client) {
        waiting.forget(file);
    }
    queues.forget(file, client);
}

// The requests of the client under these tags no longer wait on these files.
fn leave_queues(queues: &mut Queues, waiting: &mut Waiting, files: &[FileNo], client: ClientNo, tags: &[Tag]) {
    for file in files {
        leave_queue(queues, waiting, *file, client, tags);
    }
}

// Whether it stays known that no open of a lease that is breaking is left to be closed, where the lease of the key becomes
// this one.
fn keeps_settled(known: bool, opens: &Opens, summaries: &Summaries, alloc: Global, key: LeaseName, lease: HeldLease) -> bool {
    if !known {
        return false;
    }
    if !lease.is_breaking() {
        return true;
    }
    match opens.closed(alloc, &Closing::LeftOf(key), summaries) {
        Ok(left) => left.is_empty(),
        Err(_) => false,
    }
}

// The same where an open comes, the lease of whose key becomes this one.
fn opens_settled(known: bool, opens: &Opens, summaries: &Summaries, alloc: Global, one: &OpenEntry, lease: HeldLease) -> bool {
    match one.key() {
        Some(key) => keeps_settled(known, opens, summaries, alloc, key, lease),
        None => known,
    }
}

// The same on one file. Where the client has no request, what is known of the others stays.
fn leave_queue(queues: &mut Queues, waiting: &mut Waiting, file: FileNo, client: ClientNo, tags: &[Tag]) {
    if queues.has_of(file, client) {
        waiting.forget(file);
        queues.leave(file, client, tags);
    }
}

// The client is no longer connected.
fn forget_connection(present: &mut BTreeSet<ClientNo>, client: ClientNo) {
    present.remove(&client);
}
