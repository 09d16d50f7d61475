// Made by tools/plain_rust from crates/capture_walk/src/creates.rt. Changes belong there.

use std::prelude::Vec;

use crate::proved::capture_walk::note::Seen;
use smblease::proved::capture_wire::Guid;
use smblease::proved::lease_state::{Bytes, LeaseKey, Memory};
use std::alloc::Global;

/// A CREATE request, as far as its answer depends on it.
#[derive(Debug)]
pub(crate) struct Create {
    pub(crate) connection: u64,
    pub(crate) id: u64,
    // Where the capture has it.
    pub(crate) position: u64,
    pub(crate) tree: u32,
    pub(crate) name: Bytes,
    pub(crate) key: Option<LeaseKey>,
    pub(crate) unnamed: bool,
    pub(crate) closes: bool,
    pub(crate) application: Option<Guid>,
    // A file was made under its name since.
    pub(crate) remade: bool,
}

impl Create {
    // A file is made under the name.
    fn mark(&mut self, name: &[u8]) {
        if self.name.as_slice() == name {
            self.remade = true;
        }
    }
}

/// The CREATE requests that aren't answered for good.
#[derive(Debug)]
pub(crate) struct Creates {
    // The newest first.
    pending: Vec<Create>,
}

impl Creates {
    /// None. Allocates nothing.
    pub(crate) fn new(alloc: Global) -> Creates {
        Creates { pending: Vec::new(alloc) }
    }

    /// The request that a response on a connection answers, by its MessageId.
    pub(crate) fn pending(&self, connection: u64, id: u64) -> Option<&Create> {
        for one in &self.pending {
            if one.connection == connection && one.id == id {
                return Some(one);
            }
        }
        None
    }

    fn remove(&mut self, connection: u64, id: u64) {
        self.pending.retain(|one| !(one.connection == connection && one.id == id));
    }

    fn note_answer(&mut self, seen: &Seen<'_>) {
        if let Some(id) = seen.note.answered() {
            self.remove(seen.connection, id);
        }
    }

    // Those of a connection aren't waited for any more.
    fn forget(&mut self, connection: u64) {
        self.pending.retain(|one| one.connection != connection);
    }

    fn note_leaving(&mut self, seen: &Seen<'_>) {
        if seen.note.leaves() {
            self.forget(seen.connection);
        }
    }

    // The name that the request has.
    fn name_of(&self, connection: u64, id: u64) -> Result<Option<Bytes>, Memory> {
        match self.pending(connection, id) {
            Some(create) => Ok(Some(create.name.try_copy()?)),
            None => Ok(None),
        }
    }

    // A file is made under the name.
    fn mark(&mut self, name: &[u8]) {
        for one in self.pending.iter_mut() {
            one.mark(name);
        }
    }

    fn note_made(&mut self, seen: &Seen<'_>) -> Result<(), Memory> {
        let Some(given) = seen.note.create_given() else {
            return Ok(());
        };
        if !given.is_new {
            return Ok(());
        }
        if let Some(name) = self.name_of(seen.connection, given.id)? {
            self.mark(name.as_slice());
        }
        Ok(())
    }

    /// Takes note of the next message.
    pub(crate) fn note(&mut self, seen: &Seen<'_>) -> Result<(), Memory> {
        self.note_made(seen)?;
        self.note_answer(seen);
        self.note_leaving(seen);
        let Some(asked) = seen.note.create_asked() else {
            return Ok(());
        };
        let name = Bytes::new(Vec::from_slice(*self.pending.allocator(), asked.name)?);
        let create = Create {
            connection: seen.connection,
            id: asked.id,
            position: seen.latest,
            tree: asked.tree,
            name,
            key: asked.key,
            unnamed: asked.unnamed,
            closes: asked.closes,
            application: asked.application,
            remade: false,
        };
        self.pending.insert(0, create)?;
        Ok(())
    }
}
