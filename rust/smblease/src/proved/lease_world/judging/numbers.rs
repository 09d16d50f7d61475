// Made by tools/plain_rust from crates/lease_world/src/judging/numbers.rt. Changes belong there.

use std::prelude::Vec;

use crate::proved::lease_state::Memory;
use std::alloc::Global;
use std::collections::BTreeSet;

// Fewer numbers than this may be left out before one that still stands in the list.
const GAP: usize = 64;

/// A set of numbers of writes. Those of a client machine have 1, 2, 3 and so on; whoever writes a record may choose any.
// docs/DECISIONS.md: "Numbers of writes aren't hashed".
#[derive(Debug)]
pub struct Numbers {
    /// Whether each number from 0 on is in it.
    first: Vec<bool>,
    rest: BTreeSet<u64>,
}

impl Numbers {
    /// No number. Allocates nothing.
    pub fn new(alloc: Global) -> Numbers {
        Numbers { first: Vec::new(alloc), rest: BTreeSet::new(alloc) }
    }

    /// Whether the number is one of them.
    pub fn contains(&self, number: u64) -> bool {
        match self.first.get(number as usize) {
            Some(true) => true,
            _ => self.rest.contains(&number),
        }
    }

    /// The number is one of them from now on.
    ///
    /// # Errors
    ///
    /// `Memory` where there is none left for it.
    pub fn insert(&mut self, number: u64) -> Result<(), Memory> {
        let place = number as usize;
        let count = self.first.len();
        if place < count {
            self.first[place] = true;
        } else if place - count < GAP {
            self.first.resize(place, false)?;
            self.first.push(true)?;
        } else {
            put_number(&mut self.rest, number)?;
        }
        Ok(())
    }
}

fn put_number(numbers: &mut BTreeSet<u64>, number: u64) -> Result<(), Memory> {
    numbers.insert(number)?;
    Ok(())
}
