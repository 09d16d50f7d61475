// Made by tools/plain_rust from crates/capture_texts/src/whole.rt. Changes belong there.

use crate::proved::capture_texts::capture::Capture;
use crate::proved::capture_texts::line::Side;
use crate::proved::lease_texts::{LineFault, TextFault, first_line};
use std::alloc::Global;

/// The capture that a text is, made at this side of its connections.
///
/// # Errors
///
/// `Line` with the number of the first line that is refused, and `Memory` where there is none left.
pub fn read_capture(alloc: Global, at: Side, text: &[u8]) -> Result<Capture, TextFault> {
    let mut capture = Capture::new(alloc, at);
    let mut rest = text;
    let mut number = 0u64;
    while !rest.is_empty() {
        let (line, behind) = first_line(rest);
        number += 1;
        match capture.take_line(line) {
            Ok(()) => rest = behind,
            Err(LineFault::Refused) => return Err(TextFault::Line(number)),
            Err(LineFault::Memory) => return Err(TextFault::Memory),
        }
    }
    Ok(capture)
}
