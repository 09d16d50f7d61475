// Made by tools/plain_rust from crates/leasecheck/src/explaining.rt. Changes belong there.

use std::prelude::String;

use crate::proved::lease_texts::TextFault;
use crate::proved::leasecheck::failure::Failure;
use crate::proved::leasecheck::judging::push_verdict;
use crate::proved::leasecheck::refusal::Refusal;
use crate::proved::leasecheck::remarks::line_at;
use crate::proved::record_words::{Placed, push_explanation, read_placed};
use smblease::proved::lease_world::{Verdict, judge};
use std::alloc::{AllocError, Global};

/// The facts of a text, with their lines.
///
/// # Errors
///
/// `Line` with the number of the first line that is refused, and `Memory` where there is none left.
pub(crate) fn placed_of(alloc: Global, text: &[u8]) -> Result<Placed, Refusal> {
    match read_placed(alloc, text) {
        Ok(placed) => Ok(placed),
        Err(TextFault::Line(number)) => Err(Refusal::of_fact(alloc, number, line_at(text, number))),
        Err(TextFault::Memory) => Err(Refusal::bare(Failure::Memory)),
    }
}

/// Why the text of a record has its verdict: the facts that make it so, and the verdict.
///
/// # Errors
///
/// `Line` with the number of the first line that is refused, and what is said of that, and `Memory` where there is none left.
pub fn explanation_of(alloc: Global, text: &[u8]) -> Result<(String, Verdict), Refusal> {
    let placed = placed_of(alloc, text)?;
    let verdict = judge(alloc, placed.facts.as_slice())?;
    let mut told = String::new(alloc);
    push_explanation(alloc, &mut told, &placed, &verdict)?;
    Ok((told, verdict))
}

/// What `leasecheck judge --explain` prints of these: the line of the verdict, and the explanation.
pub fn reason_text(alloc: Global, verdict: &Verdict, explanation: &str) -> Result<String, AllocError> {
    let mut text = String::new(alloc);
    push_verdict(&mut text, verdict)?;
    text.push_str(explanation)?;
    Ok(text)
}
