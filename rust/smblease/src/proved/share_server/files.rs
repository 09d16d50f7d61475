// Made by tools/plain_rust from crates/share_server/src/files.rt. Changes belong there.

use std::prelude::Vec;

use crate::proved::lease_state::{Content, ContentFault, FileNo, Memory, Patch};

/// The last number that a file can have (profile): those of one byte.
const LAST_FILE_NUMBER: usize = 255;

/// The bytes of the files, which are numbered from 1.
#[derive(Debug)]
pub struct Files {
    contents: Vec<Content>,
}

impl Files {
    /// Files of these contents, in order, of which those past the last number are dropped. Allocates nothing.
    pub fn new(mut contents: Vec<Content>) -> Files {
        contents.truncate(LAST_FILE_NUMBER);
        Files { contents }
    }

    /// How many there are.
    pub fn count(&self) -> u8 {
        self.contents.len() as u8
    }

    /// The bytes of a file, and none where there is no file of this number.
    pub fn bytes(&self, file: FileNo) -> &[u8] {
        let number = usize::from(file.0);
        if number == 0 {
            return &[];
        }
        if number > self.contents.len() {
            return &[];
        }
        self.contents[number - 1].bytes()
    }

    /// The patch is put over the bytes of the file.
    ///
    /// # Errors
    ///
    /// `Memory` where there is none left. The same is said of a patch that ends past the limit, and of a file that isn't
    /// there: no manager lets such a write go on.
    pub fn change(&mut self, file: FileNo, patch: &Patch) -> Result<(), Memory> {
        let number = usize::from(file.0);
        if number == 0 || number > self.contents.len() {
            return Err(Memory);
        }
        apply(&mut self.contents[number - 1], patch)?;
        Ok(())
    }
}

// The patch is put over the bytes.
fn apply(content: &mut Content, patch: &Patch) -> Result<(), Memory> {
    match content.apply(patch) {
        Ok(()) => Ok(()),
        Err(ContentFault::Memory | ContentFault::TooLong) => Err(Memory),
    }
}
