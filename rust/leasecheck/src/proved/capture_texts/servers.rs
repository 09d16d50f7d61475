// Made by tools/plain_rust from crates/capture_texts/src/servers.rt. Changes belong there.

use std::prelude::Vec;

use smblease::proved::lease_state::{Bytes, Memory};
use std::alloc::Global;

/// The addresses of servers, which have the numbers from 1 on in the order in which they come.
#[derive(Debug)]
pub(crate) struct Servers {
    addresses: Vec<Bytes>,
}

impl Servers {
    /// None. Allocates nothing.
    pub(crate) fn new(alloc: Global) -> Servers {
        Servers { addresses: Vec::new(alloc) }
    }

    fn has(&self, address: &[u8]) -> bool {
        self.addresses.iter().any(|one| one.as_slice() == address)
    }

    /// Takes note of the server with an address.
    pub(crate) fn note(&mut self, address: &[u8]) -> Result<(), Memory> {
        if !self.has(address) {
            let address = Bytes::new(Vec::from_slice(*self.addresses.allocator(), address)?);
            self.addresses.push(address)?;
        }
        Ok(())
    }

    /// The number of the server with an address; 0 where there is none.
    pub(crate) fn number(&self, address: &[u8]) -> u64 {
        for (index, one) in self.addresses.iter().enumerate() {
            if one.as_slice() == address {
                return index as u64 + 1;
            }
        }
        0
    }

    /// The address of the server of a number; no byte where there is none.
    pub(crate) fn address(&self, number: u64) -> &[u8] {
        if number == 0 {
            return &[];
        }
        match self.addresses.get(number as usize - 1) {
            Some(address) => address.as_slice(),
            None => &[],
        }
    }
}
