// Made by tools/plain_rust from crates/lease_client/src/writes/shown.rt. Changes belong there.

use crate::proved::lease_client::entry::Pending;
use crate::proved::lease_client::values::shared_bytes::SharedBytes;
use crate::proved::lease_state::{Bytes, Memory};
use std::alloc::Global;
use std::collections::VecDeque;

/// What was seen last of a file's bytes with writes over them.
// docs/DECISIONS.md: "What a client has seen is kept, and cached reads share it".
#[derive(Debug)]
pub struct Shown {
    /// The bytes below the writes.
    base: SharedBytes,
    /// These with the first writes.
    bytes: SharedBytes,
    /// How many writes.
    count: usize,
}

impl Shown {
    /// The bytes with all writes.
    ///
    /// # Errors
    ///
    /// `Memory` where there is none left for it.
    pub fn anew(alloc: Global, base: &SharedBytes, writes: &VecDeque<Pending>) -> Result<Shown, Memory> {
        Ok(Shown { base: base.share()?, bytes: with_more(alloc, base, writes, 0)?, count: writes.len() })
    }

    /// Whether these are the bytes below the writes.
    pub fn is_over(&self, base: &SharedBytes) -> bool {
        self.base == *base
    }

    /// With all writes, of which the first were shown before.
    ///
    /// # Errors
    ///
    /// `Memory` where there is none left for it.
    pub fn with_all(self, alloc: Global, writes: &VecDeque<Pending>) -> Result<Shown, Memory> {
        if self.count == writes.len() {
            return Ok(self);
        }
        let Shown { base, bytes, count } = self;
        Ok(Shown { base, bytes: with_more(alloc, &bytes, writes, count)?, count: writes.len() })
    }

    /// The bytes, which one more value holds from now on.
    ///
    /// # Errors
    ///
    /// `Memory` where there is none left for it.
    pub fn share(&self) -> Result<SharedBytes, Memory> {
        self.bytes.share()
    }

    /// What is shown after the write at this place was taken out: the first write is put below the others, and one that wasn't
    /// shown changes nothing. `None` after another write, and where there is no memory left.
    pub fn without(self, alloc: Global, place: usize, write: &Pending) -> Option<Shown> {
        if place == 0 {
            self.with_first_below(alloc, write)
        } else if self.count <= place {
            Some(self)
        } else {
            None
        }
    }

    // The same bytes, where the first write is put below the others that were shown, if there are any.
    fn with_first_below(self, alloc: Global, first: &Pending) -> Option<Shown> {
        let Shown { base, bytes, count } = self;
        if count < 2 {
            return None;
        }
        match base.patched(alloc, &first.patch) {
            Ok(base) => Some(Shown { base, bytes, count: count - 1 }),
            Err(Memory) => None,
        }
    }
}

// The bytes with the writes from this place on.
fn with_more(alloc: Global, bytes: &SharedBytes, writes: &VecDeque<Pending>, place: usize) -> Result<SharedBytes, Memory> {
    let mut more = bytes.try_copy(alloc)?.into_vec();
    for index in place..writes.len() {
        writes[index].patch.apply(&mut more)?;
    }
    SharedBytes::new(Bytes::new(more))
}
