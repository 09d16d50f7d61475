// Made by tools/plain_rust from crates/lease_world/src/judging/writes.rt. Changes belong there.

use std::prelude::Vec;

use crate::proved::lease_state::{FileNo, Memory, Patch};
use std::alloc::Global;
use std::collections::BTreeMap;

/// A write that was given to a client: its file, its place in the record, whether it was buffered, its patch, and whether the
/// file was changed by it since.
#[derive(Debug)]
pub struct WriteSeen {
    pub file: FileNo,
    pub place: u64,
    pub buffered: bool,
    pub patch: Patch,
    pub accepted: bool,
}

impl WriteSeen {
    /// A file is changed by a write of this number: it is this one where file and patch are the same.
    fn accept(&mut self, file: FileNo, patch: &Patch) {
        if self.file == file && self.patch == *patch {
            self.accepted = true;
        }
    }
}

/// The writes that were given to a client, by their numbers. Those of a client machine have 1, 2, 3 and so on; whoever writes a
/// record may choose any.
#[derive(Debug)]
pub struct WritesSeen {
    /// Those whose numbers came one after another, from 1 on.
    first: Vec<WriteSeen>,
    rest: BTreeMap<u64, WriteSeen>,
}

impl WritesSeen {
    /// No write. Allocates nothing.
    pub fn new(alloc: Global) -> WritesSeen {
        WritesSeen { first: Vec::new(alloc), rest: BTreeMap::new(alloc) }
    }

    /// The write of this number.
    pub fn get(&self, number: u64) -> Option<&WriteSeen> {
        if self.is_first(number) { self.first.get((number - 1) as usize) } else { self.rest.get(&number) }
    }

    /// The write gets this number.
    ///
    /// # Errors
    ///
    /// `Memory` where there is none left for it.
    pub fn insert(&mut self, number: u64, write: WriteSeen) -> Result<(), Memory> {
        if self.is_first(number) {
            self.first[(number - 1) as usize] = write;
        } else if number > 0 && number - 1 == self.first.len() as u64 {
            self.first.push(write)?;
        } else {
            put_write(&mut self.rest, number, write)?;
        }
        Ok(())
    }

    /// A file is changed by the write of this number.
    pub fn accept(&mut self, file: FileNo, number: u64, patch: &Patch) {
        if self.is_first(number) {
            let write = &mut self.first[(number - 1) as usize];
            write.accept(file, patch);
        } else {
            accept_in(&mut self.rest, file, number, patch);
        }
    }

    fn is_first(&self, number: u64) -> bool {
        0 < number && number <= self.first.len() as u64
    }
}

fn put_write(writes: &mut BTreeMap<u64, WriteSeen>, number: u64, write: WriteSeen) -> Result<(), Memory> {
    writes.insert(number, write)?;
    Ok(())
}

// A file is changed by the write of this number.
fn accept_in(writes: &mut BTreeMap<u64, WriteSeen>, file: FileNo, number: u64, patch: &Patch) {
    if let Some(write) = writes.get_mut(&number) {
        write.accept(file, patch);
    }
}
