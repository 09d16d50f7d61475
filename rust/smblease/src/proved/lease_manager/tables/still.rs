// Made by tools/plain_rust from crates/lease_manager/src/tables/still.rt. Changes belong there.

use crate::proved::lease_manager::requests::attempt::must_wait;
use crate::proved::lease_manager::requests::finding::Finding;
use crate::proved::lease_manager::tables::Tables;
use crate::proved::lease_manager::tables::opens::Opens;
use crate::proved::lease_manager::tables::queues::Queues;
use crate::proved::lease_manager::tables::summaries::Summaries;
use crate::proved::lease_manager::tables::waiting::Waiting;
use crate::proved::lease_manager::values::closing::Closing;
use crate::proved::lease_manager::values::key::LeaseName;
use crate::proved::lease_manager::values::number::{ClientNo, FileNo};
use crate::proved::lease_manager::values::open::OpenEntry;
use crate::proved::lease_manager::values::request::{Ask, CreateAsk, key_asked};
use crate::proved::lease_manager::values::want::{Want, Wish};
use crate::proved::lease_state::{Access, FileId, Memory, Share};

impl Tables {
    /// How many requests at the front of the file's queue are known to wait still.
    pub fn still(&self, file: FileNo) -> usize {
        if self.held(file).len() == 0 {
            return 0;
        }
        self.waiting.count(file)
    }

    /// The request at this place of the file's queue waits still: where all before it are known to, it
    /// is counted.
    ///
    /// # Errors
    ///
    /// `Memory` where there is none left for the file's count.
    pub fn count_still(&mut self, file: FileNo, place: usize) -> Result<(), Memory> {
        if self.waiting.count(file) == place && place < self.held(file).len() {
            self.waiting.put(file, place + 1)?;
        }
        Ok(())
    }

    /// Whether the request sees no other file, and all that it wants is under way, so that a try of it
    /// would change nothing.
    ///
    /// # Errors
    ///
    /// `Memory` where there is none left for the list of leases.
    pub fn has_only_to_wait(&self, file: FileNo, client: ClientNo, ask: Ask) -> Result<bool, Memory> {
        // The invariant, by which no key without an open has a lease, is known of what is looked at.
        let _ = &self.summaries;
        if !self.is_only_about(file, client, ask) {
            return Ok(false);
        }
        if self.awaits_handles(client, ask) {
            return Ok(true);
        }
        match self.finding(client, ask)? {
            Finding::Fails(_) | Finding::Ready => Ok(false),
            Finding::Needs(wants) => {
                let waits = self.only_wait(file, ask, &wants)?;
                Ok(waits)
            }
        }
    }

    // Whether it is a create of the file, whose key has no open on another, or a write by an open on it.
    fn is_only_about(&self, file: FileNo, client: ClientNo, ask: Ask) -> bool {
        match ask {
            Ask::Create { file: other, ask, .. } => {
                other == file && !self.is_leased_elsewhere(key_asked(client, ask.lease), file)
            }
            Ask::Write { fid, .. } => match self.open_file(client, fid) {
                Some(other) => other == file,
                None => false,
            },
            Ask::Read { .. } | Ask::Close { .. } => false,
        }
    }

    // Whether it is a create that handles of other keys are in the way of, where all of them on its file are being given up.
    // So an acknowledgment of one break of many takes no look at the others.
    fn awaits_handles(&self, client: ClientNo, ask: Ask) -> bool {
        match ask {
            Ask::Create { file, access, share, ask } => self.create_awaits_handles(client, file, access, share, ask),
            Ask::Read { .. } | Ask::Write { .. } | Ask::Close { .. } => false,
        }
    }

    fn create_awaits_handles(&self, client: ClientNo, file: FileNo, access: Access, share: Share, ask: CreateAsk) -> bool {
        if !self.has_file(file) {
            return false;
        }
        match ask.reconnect {
            Some(_) => false,
            None => self.are_handles_awaited(key_asked(client, ask.lease), file, access, share),
        }
    }

    // Whether handles of other keys are in the way of a create, and all of them on the file are being given up.
    fn are_handles_awaited(&self, own: Option<LeaseName>, file: FileNo, access: Access, share: Share) -> bool {
        // Each call is given a copy of its own, for the borrow checker.
        let key = own;
        if !self.are_handles_going(own, file) {
            return false;
        }
        self.is_any_wanted(Wish::NoHandles { access, share }, key, file)
    }

    // Whether each lease of another key on the file that holds `HANDLE_CACHING` is breaking, and no open of such a lease is
    // left to be closed.
    fn are_handles_going(&self, own: Option<LeaseName>, file: FileNo) -> bool {
        // The invariant, which says what is known of opens that are left, is known of what is looked at.
        let _ = &self.summaries;
        if !self.settled {
            return false;
        }
        self.summaries.are_handlers_breaking(own, file)
    }

    // Whether a request that can't be answered has to wait for some of its wants, and all of them are
    // under way.
    fn only_wait(&self, file: FileNo, ask: Ask, wants: &[Want]) -> Result<bool, Memory> {
        if !must_wait(self, ask, wants) {
            return Ok(false);
        }
        self.are_under_way(file, wants)
    }

    fn are_under_way(&self, file: FileNo, wants: &[Want]) -> Result<bool, Memory> {
        for want in wants {
            if !self.is_under_way(file, want.key)? {
                return Ok(false);
            }
        }
        Ok(true)
    }

    // Whether nothing more can be done at once to the lease of the key, which has an open on the file: it
    // is breaking, and none of its opens is left to be closed.
    fn is_under_way(&self, file: FileNo, key: LeaseName) -> Result<bool, Memory> {
        if !self.lease(key).is_breaking() {
            return Ok(false);
        }
        let left = self.opens.closed(self.alloc(), &Closing::LeftOf(key), &self.summaries)?;
        if left.is_empty() { Ok(self.is_at_home(file, key)) } else { Ok(false) }
    }

    // Whether the key has an open on the file.
    fn is_at_home(&self, file: FileNo, key: LeaseName) -> bool {
        let _ = &self.summaries;
        if !self.has_lease(key) {
            return false;
        }
        !self.is_leased_elsewhere(Some(key), file)
    }
}

/// What is known of the file of the key's opens is forgotten.
pub fn forget_home(waiting: &mut Waiting, summaries: &Summaries, key: LeaseName) {
    if waiting.is_empty() {
        return;
    }
    match summaries.home(key) {
        Some(file) => waiting.forget(file),
        None => {}
    }
}

/// What is known of the files of these opens is forgotten.
pub fn forget_files(waiting: &mut Waiting, opens: &Opens, ids: &[FileId]) {
    if waiting.is_empty() {
        return;
    }
    for id in ids {
        forget_file_of(waiting, opens, *id);
    }
}

fn forget_file_of(waiting: &mut Waiting, opens: &Opens, id: FileId) {
    match opens.find(id) {
        Some(one) => waiting.forget(one.file),
        None => {}
    }
}

/// What is known of the file of an open that comes is forgotten, and, where a create of any file is held
/// under its key, what is known of all.
pub fn forget_for(waiting: &mut Waiting, queues: &Queues, one: &OpenEntry) {
    waiting.forget(one.file);
    if waiting.is_empty() {
        return;
    }
    if queues.ask_with(one) {
        waiting.clear();
    }
}
