// Made by tools/plain_rust from crates/lease_world/src/judging/caches.rt. Changes belong there.

use std::prelude::Vec;

use crate::proved::lease_state::{FileNo, Memory};
use crate::proved::lease_world::judging::cache::CacheSeen;
use std::alloc::Global;

/// What a judge keeps of a client's files, by their numbers.
#[derive(Debug)]
pub struct Caches {
    seen: Vec<CacheSeen>,
}

impl Caches {
    /// Of no file. Allocates nothing.
    pub fn new(alloc: Global) -> Caches {
        Caches { seen: Vec::new(alloc) }
    }

    /// What is kept of each file, in the order of their numbers.
    pub fn as_slice(&self) -> &[CacheSeen] {
        self.seen.as_slice()
    }

    /// What is kept of the file, to be changed in its place.
    ///
    /// # Errors
    ///
    /// `Memory` where there is none left for it.
    pub fn get_mut(&mut self, file: FileNo) -> Result<&mut CacheSeen, Memory> {
        reach(&mut self.seen, file)?;
        Ok(&mut self.seen[usize::from(file.0)])
    }
}

// Makes a place for what is kept of the file.
fn reach(caches: &mut Vec<CacheSeen>, file: FileNo) -> Result<(), Memory> {
    let alloc = *caches.allocator();
    while caches.len() <= usize::from(file.0) {
        caches.push(CacheSeen::new(alloc))?;
    }
    Ok(())
}
