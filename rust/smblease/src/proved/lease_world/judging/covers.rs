// Made by tools/plain_rust from crates/lease_world/src/judging/covers.rt. Changes belong there.

use std::prelude::Vec;

use crate::proved::lease_state::{Memory, Patch};
use crate::proved::lease_world::judging::numbers::Numbers;
use std::alloc::Global;

/// A byte of a write.
#[derive(Clone, Copy, Debug)]
pub struct Layer {
    /// The number of the write.
    pub number: u64,
    pub byte: u8,
}

// A layer that covers a position, and which cover lies under it. Covers count from 1; 0 is none.
#[derive(Clone, Copy, Debug)]
struct Cover {
    layer: Layer,
    below: usize,
}

/// For each position of a file, as far as writes cover it, the bytes of these writes there, the last on top.
// docs/DECISIONS.md: "Writes cover positions, as stacks that are linked".
#[derive(Debug)]
pub struct Covers {
    covers: Vec<Cover>,
    /// By positions, the topmost covers.
    tops: Vec<usize>,
}

impl Covers {
    /// No position is covered. Allocates nothing.
    pub fn new(alloc: Global) -> Covers {
        Covers { covers: Vec::new(alloc), tops: Vec::new(alloc) }
    }

    /// As far as positions are covered.
    pub fn len(&self) -> usize {
        self.tops.len()
    }

    // A layer covers the position, on top of those that do.
    fn cover(&mut self, position: usize, layer: Layer) -> Result<(), Memory> {
        reach(&mut self.tops, position)?;
        let below = self.tops[position];
        let count = self.covers.len();
        self.covers.push(Cover { layer, below })?;
        self.tops[position] = count + 1;
        Ok(())
    }

    /// A write covers the positions of its bytes, on top.
    ///
    /// # Errors
    ///
    /// `Memory` where there is none left.
    pub fn lay(&mut self, number: u64, patch: &Patch) -> Result<(), Memory> {
        let bytes = patch.bytes.as_slice();
        for place in 0..bytes.len() {
            let layer = Layer { number, byte: bytes[place] };
            self.cover(patch.offset as usize + place, layer)?;
        }
        Ok(())
    }

    /// Settled writes are taken off where they lie on top, and positions at the end that nothing covers.
    pub fn uncover(&mut self, settled: &Numbers) {
        uncover_each(&self.covers, &mut self.tops, settled);
        self.tops.truncate(covered(&self.tops));
        if self.tops.is_empty() {
            self.covers.clear();
        }
    }

    // The byte that is seen at a position as far as these are covered.
    fn byte_at(&self, base: &[u8], position: usize) -> u8 {
        let top = self.tops[position];
        if top == 0 { byte_or_zero(base, position) } else { self.covers[top - 1].layer.byte }
    }

    // Whether these are the bytes as far as positions are covered.
    fn shows_covered(&self, base: &[u8], bytes: &[u8]) -> bool {
        for position in 0..self.tops.len() {
            if self.byte_at(base, position) != bytes[position] {
                return false;
            }
        }
        true
    }

    /// Whether these are the bytes of the base with the writes over them.
    pub fn shows(&self, base: &[u8], bytes: &[u8]) -> bool {
        let covered = self.len();
        if bytes.len() != base.len().max(covered) {
            return false;
        }
        if !self.shows_covered(base, bytes) {
            return false;
        }
        bytes[covered..] == base[covered.min(base.len())..]
    }
}

fn byte_or_zero(bytes: &[u8], position: usize) -> u8 {
    if position < bytes.len() { bytes[position] } else { 0 }
}

// The positions up to this one have a place.
fn reach(tops: &mut Vec<usize>, position: usize) -> Result<(), Memory> {
    while tops.len() <= position {
        tops.push(0)?;
    }
    Ok(())
}

// The topmost cover of those from this one down whose write isn't settled, or 0.
fn uncovered(covers: &[Cover], top: usize, settled: &Numbers) -> usize {
    let mut top = top;
    while top > 0 {
        let cover = &covers[top - 1];
        if !settled.contains(cover.layer.number) {
            return top;
        }
        top = cover.below;
    }
    top
}

// At each position the settled writes that lie on top are taken off.
fn uncover_each(covers: &[Cover], tops: &mut Vec<usize>, settled: &Numbers) {
    for position in 0..tops.len() {
        tops[position] = uncovered(covers, tops[position], settled);
    }
}

// How far positions are covered.
fn covered(tops: &[usize]) -> usize {
    let mut count = tops.len();
    while count > 0 {
        if tops[count - 1] != 0 {
            return count;
        }
        count -= 1;
    }
    0
}
