// Made by tools/plain_rust from crates/lease_client/src/values/shared_bytes.rt. Changes belong there.

use std::prelude::Vec;

use crate::proved::lease_state::{Bytes, Memory, Patch};
use std::alloc::Global;
use std::convert::AsSlice;
use std::ports::bytes::Bytes as Shared;

/// Bytes that never change and that several values may hold together, as what a client's cache shows
/// and the note of a read from it. Contracts see the list of them.
#[derive(Debug)]
pub struct SharedBytes {
    bytes: Shared,
}

impl SharedBytes {
    /// These bytes, which stay where they are.
    ///
    /// # Errors
    ///
    /// `Memory` where there is none left for the count of those that hold them.
    pub fn new(bytes: Bytes) -> Result<SharedBytes, Memory> {
        match Shared::from_vec(bytes.into_vec()) {
            Ok(bytes) => Ok(SharedBytes { bytes }),
            Err(_) => Err(Memory),
        }
    }

    /// The same bytes for one more that holds them. None of them is copied.
    ///
    /// # Errors
    ///
    /// `Memory` where there is none left.
    pub fn share(&self) -> Result<SharedBytes, Memory> {
        let bytes = self.bytes.clone()?;
        Ok(SharedBytes { bytes })
    }

    /// The bytes, in order.
    pub fn as_slice(&self) -> &[u8] {
        self.bytes.as_slice()
    }

    /// The bytes with a patch. Where no other value holds them, none of them is copied.
    ///
    /// # Errors
    ///
    /// `Memory` where there is none left.
    pub(crate) fn patched(self, alloc: Global, change: &Patch) -> Result<SharedBytes, Memory> {
        let mut bytes = self.into_vec(alloc)?;
        change.apply(&mut bytes)?;
        SharedBytes::new(Bytes::new(bytes))
    }

    // The bytes as a vector, which is a copy where another value holds them too.
    fn into_vec(self, alloc: Global) -> Result<Vec<u8>, Memory> {
        match self.bytes.try_into_mut() {
            Ok(bytes) => match bytes.into_vec() {
                Ok(bytes) => Ok(bytes),
                Err(_) => Err(Memory),
            },
            Err(bytes) => Ok(Vec::from_slice(alloc, bytes.as_slice())?),
        }
    }

    /// Equal bytes in memory of their own.
    ///
    /// # Errors
    ///
    /// `Memory` where there is none left for them.
    pub fn try_copy(&self, alloc: Global) -> Result<Bytes, Memory> {
        Ok(Bytes::new(Vec::from_slice(alloc, self.as_slice())?))
    }
}

impl AsSlice<u8> for SharedBytes {
    fn as_slice(&self) -> &[u8] {
        self.bytes.as_slice()
    }
}

impl PartialEq for SharedBytes {
    fn eq(&self, other: &SharedBytes) -> bool {
        self.bytes == other.bytes
    }
}

impl Eq for SharedBytes {}
