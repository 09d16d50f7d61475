// Made by tools/plain_rust from crates/lease_state/src/bytes.rt. Changes belong there.

use std::prelude::Vec;

use crate::proved::lease_state::Memory;
use std::convert::AsSlice;

/// Bytes that a value owns, such as those of a write or of a request's create contexts (profile). To contracts they are a list.
#[derive(Debug)]
pub struct Bytes {
    items: Vec<u8>,
}

impl Bytes {
    /// The bytes of `items`, which stay where they are. Allocates nothing.
    pub fn new(items: Vec<u8>) -> Bytes {
        Bytes { items }
    }

    /// The bytes, in order.
    pub fn as_slice(&self) -> &[u8] {
        self.items.as_slice()
    }

    /// How many bytes there are.
    pub fn len(&self) -> usize {
        self.items.len()
    }

    /// Whether there are none.
    pub fn is_empty(&self) -> bool {
        self.items.is_empty()
    }

    /// The bytes as a vector. Allocates nothing.
    pub fn into_vec(self) -> Vec<u8> {
        let Bytes { items } = self;
        items
    }

    /// Equal bytes in memory of their own, from the allocator of these.
    ///
    /// # Errors
    ///
    /// `Memory` where there is none left.
    pub fn try_copy(&self) -> Result<Bytes, Memory> {
        let items = Vec::from_slice(*self.items.allocator(), self.items.as_slice())?;
        Ok(Bytes { items })
    }
}

impl From<Vec<u8>> for Bytes {
    fn from(items: Vec<u8>) -> Bytes {
        Bytes::new(items)
    }
}

impl AsSlice<u8> for Bytes {
    fn as_slice(&self) -> &[u8] {
        self.items.as_slice()
    }
}

impl PartialEq for Bytes {
    fn eq(&self, other: &Bytes) -> bool {
        self.items == other.items
    }
}

impl Eq for Bytes {}

#[cfg(test)]
mod tests {
    use std::prelude::{HostRuntime, Vec};

    use super::*;
    use std::test::Fail;

    #[test]
    fn holds_a_vector_and_gives_it_back() {
        std::test::passes(|| -> Result<(), Fail> {
            let rt = HostRuntime::host();
            let bytes = Bytes::new(Vec::from_slice(rt.alloc(), b"abc")?);
            assert_eq!(bytes.as_slice(), b"abc".as_slice());
            let copy = bytes.try_copy()?;
            assert!(copy == bytes);
            assert_eq!((bytes.len(), bytes.is_empty()), (3, false));
            assert!(Bytes::from(Vec::new(rt.alloc())).is_empty());
            assert_eq!(AsSlice::as_slice(&bytes), b"abc".as_slice());
            assert_eq!(bytes.into_vec().as_slice(), b"abc".as_slice());
            assert!(copy != Bytes::new(Vec::from_slice(rt.alloc(), b"abd")?));
            Ok(())
        })
    }
}
