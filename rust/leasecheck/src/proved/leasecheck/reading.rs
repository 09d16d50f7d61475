// Made by tools/plain_rust from crates/leasecheck/src/reading.rt. Changes belong there.

use std::prelude::Vec;

use crate::proved::leasecheck::failure::Failure;
use std::alloc::Global;
use std::io::Read;

/// All that a reader gives.
///
/// # Errors
///
/// `File` where a read fails, and `Memory` where there is none left.
pub(crate) fn read_all<I: Read>(alloc: Global, input: &mut I) -> Result<Vec<u8>, Failure> {
    let mut bytes = Vec::new(alloc);
    match input.read_to_end(&mut bytes) {
        Ok(_) => Ok(bytes),
        Err(error) => Err(Failure::of_reading(error.kind())),
    }
}
