//! Files.
use super::io::{Read, Result};
use crate::alloc::Global;
use crate::rt::Files;
use crate::vec::Vec;

/// Opens a file to read it.
pub fn open<R: Files>(_rt: &R, path: &str) -> Result<rust_std::fs::File> {
    Ok(rust_std::fs::File::open(path)?)
}

/// The bytes of a file.
pub fn read<R: Files>(rt: &R, path: &str) -> Result<Vec<u8>> {
    let mut bytes = Vec::new(Global);
    open(rt, path)?.read_to_end(&mut bytes)?;
    Ok(bytes)
}
