// Made by tools/plain_rust from crates/lease_world/src/judging/files.rt. Changes belong there.

use std::prelude::Vec;

use crate::proved::lease_state::{FileNo, Memory};
use crate::proved::lease_world::judging::file::FileSeen;
use std::alloc::Global;

/// What a judge keeps of files, by their numbers.
#[derive(Debug)]
pub struct Files {
    seen: Vec<FileSeen>,
}

impl Files {
    /// Before any fact. Allocates nothing.
    pub fn new(alloc: Global) -> Files {
        Files { seen: Vec::new(alloc) }
    }

    /// The allocator of what is kept.
    pub fn alloc(&self) -> Global {
        *self.seen.allocator()
    }

    /// Whether the file was started.
    pub fn is_started(&self, file: FileNo) -> bool {
        match self.seen.get(usize::from(file.0)) {
            Some(seen) => seen.is_started(),
            None => false,
        }
    }

    /// What is kept of a file, to be looked at and changed in its place.
    ///
    /// # Errors
    ///
    /// `Memory` where there is none left for what is kept of the file.
    pub fn get_mut(&mut self, file: FileNo) -> Result<&mut FileSeen, Memory> {
        reach(&mut self.seen, file)?;
        Ok(&mut self.seen[usize::from(file.0)])
    }
}

// Makes a place for what is kept of the file.
fn reach(files: &mut Vec<FileSeen>, file: FileNo) -> Result<(), Memory> {
    let alloc = *files.allocator();
    while files.len() <= usize::from(file.0) {
        files.push(FileSeen::new(alloc))?;
    }
    Ok(())
}
