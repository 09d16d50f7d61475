// Made by tools/plain_rust from crates/record_words/src/words/placed.rt. Changes belong there.

use std::prelude::Vec;

use crate::proved::lease_texts::{LineFault, TextFault, first_line, is_passed_over, read_fact};
use smblease::proved::lease_facts::Fact;
use std::alloc::Global;

/// The facts of a record, and the number of the line in which each stands. Lines count from 1, and
/// those that hold no fact count too.
#[derive(Debug)]
pub struct Placed {
    pub facts: Vec<Fact>,
    pub lines: Vec<u64>,
}

impl Placed {
    // Adds the fact of the line of this number.
    fn add(&mut self, alloc: Global, line: &[u8], number: u64) -> Result<(), LineFault> {
        if is_passed_over(line) {
            return Ok(());
        }
        let fact = read_fact(alloc, line)?;
        self.facts.push(fact)?;
        self.lines.push(number)?;
        Ok(())
    }

    /// The fact at this place, if there is one.
    pub fn fact(&self, place: usize) -> Option<&Fact> {
        self.facts.get(place.saturating_sub(1))
    }

    /// The number of the line of the fact at this place.
    pub fn line(&self, place: usize) -> u64 {
        self.lines.get(place.saturating_sub(1)).copied().unwrap_or(0)
    }
}

/// The facts of a record, with their lines.
///
/// # Errors
///
/// `Line` with the number of the first line that is refused, and `Memory` where there is none left.
pub fn read_placed(alloc: Global, text: &[u8]) -> Result<Placed, TextFault> {
    let mut placed = Placed { facts: Vec::new(alloc), lines: Vec::new(alloc) };
    let mut rest = text;
    let mut number = 0u64;
    while !rest.is_empty() {
        let (line, behind) = first_line(rest);
        number += 1;
        match placed.add(alloc, line, number) {
            Ok(()) => rest = behind,
            Err(LineFault::Refused) => return Err(TextFault::Line(number)),
            Err(LineFault::Memory) => return Err(TextFault::Memory),
        }
    }
    Ok(placed)
}
