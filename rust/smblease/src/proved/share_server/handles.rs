// Made by tools/plain_rust from crates/share_server/src/handles.rt. Changes belong there.

use crate::proved::lease_state::{FileId, FileNo, Memory};
use std::alloc::Global;
use std::collections::BTreeMap;

/// Of each open, by its FileId, the file.
#[derive(Debug)]
pub struct Handles {
    files: BTreeMap<u64, u8>,
}

impl Handles {
    /// None. Allocates nothing.
    pub fn new(alloc: Global) -> Handles {
        Handles { files: BTreeMap::new(alloc) }
    }

    /// The file of the open, and 0 where there is none of this FileId.
    pub fn file(&self, fid: FileId) -> FileNo {
        match self.files.get(&fid.0) {
            Some(file) => FileNo(*file),
            None => FileNo(0),
        }
    }

    /// The open is one of the file.
    ///
    /// # Errors
    ///
    /// `Memory` where there is none left for it.
    pub fn put(&mut self, fid: FileId, file: FileNo) -> Result<(), Memory> {
        self.files.insert(fid.0, file.0)?;
        Ok(())
    }

    /// There is no open of this FileId.
    pub fn remove(&mut self, fid: FileId) {
        self.files.remove(&fid.0);
    }
}
