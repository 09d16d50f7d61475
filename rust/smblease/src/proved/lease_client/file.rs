// Made by tools/plain_rust from crates/lease_client/src/file.rt. Changes belong there.

use crate::proved::lease_client::entry::Pending;
use crate::proved::lease_client::values::shared_bytes::SharedBytes;
use crate::proved::lease_client::writes::queue::Writes;
use crate::proved::lease_state::{Memory, Patch};

/// What a client keeps of the bytes of a file that is open: the file as last known, and the buffered
/// writes that aren't sent.
// docs/DECISIONS.md: "The file as last known is shared bytes".
#[derive(Debug)]
pub struct File {
    base: Option<SharedBytes>,
    /// In order.
    unsent: Writes,
}

impl File {
    /// A file of which nothing is known but these unsent writes. Allocates nothing.
    pub fn unknown(unsent: Writes) -> File {
        File { base: None, unsent }
    }

    /// The unsent writes, in order.
    pub fn unsent(&self) -> &Writes {
        &self.unsent
    }

    /// The unsent writes, in order, without the file. Allocates nothing.
    pub fn into_unsent(self) -> Writes {
        let File { unsent, .. } = self;
        unsent
    }

    /// A write is buffered, after the others.
    ///
    /// # Errors
    ///
    /// `Memory` where there is none left for it.
    pub fn buffer(&mut self, write: Pending) -> Result<(), Memory> {
        self.unsent.push(write)
    }

    /// The unsent writes go to the end of those that are sent.
    ///
    /// # Errors
    ///
    /// `Memory` where there is none left for them there.
    pub fn send(&mut self, sent: &mut Writes) -> Result<(), Memory> {
        sent.append(&mut self.unsent)
    }

    /// The unsent writes are given up. Allocates nothing.
    pub fn give_up_unsent(&mut self) {
        self.unsent.clear();
    }

    /// These are the bytes as last known.
    pub fn learn(&mut self, base: SharedBytes) {
        self.base = Some(base);
    }

    /// The bytes are known no more.
    pub fn forget(&mut self) {
        self.base = None;
    }

    /// The bytes, if they are known, have this change from now on.
    ///
    /// # Errors
    ///
    /// `Memory` where the file grows or another value holds its bytes, and there is none left.
    pub fn change(&mut self, change: &Patch) -> Result<(), Memory> {
        if let Some(base) = self.base.take() {
            self.base = Some(base.patched(self.unsent.alloc(), change)?);
        }
        Ok(())
    }

    /// The file with the unanswered writes, those that are sent first; `None` where its bytes aren't
    /// known.
    ///
    /// # Errors
    ///
    /// `Memory` where there is none left for it.
    pub fn view(&mut self, sent: &mut Writes) -> Option<Result<SharedBytes, Memory>> {
        match &self.base {
            Some(base) => Some(seen_on(base, sent, &mut self.unsent)),
            None => None,
        }
    }

    /// These bytes, in place of the file's, with the unanswered writes, those that are sent first.
    ///
    /// # Errors
    ///
    /// `Memory` where there is none left for them.
    pub fn over(&mut self, base: &SharedBytes, sent: &mut Writes) -> Result<SharedBytes, Memory> {
        seen_on(base, sent, &mut self.unsent)
    }
}

// The bytes with the writes that are sent, and then with the others.
fn seen_on(base: &SharedBytes, sent: &mut Writes, unsent: &mut Writes) -> Result<SharedBytes, Memory> {
    let under = sent.shown_on(base)?;
    unsent.shown_on(&under)
}
