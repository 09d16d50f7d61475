// Made by tools/plain_rust from crates/leasecheck/src/conversing.rt. Changes belong there.

use std::prelude::Vec;

use crate::proved::lease_lines::{Answer, Machines};
use crate::proved::lease_texts::first_line;
use crate::proved::leasecheck::failure::Failure;
use crate::proved::leasecheck::printing::print_text;
use std::alloc::Global;
use std::io::{BufRead, Write};

// The bytes of the next line, with its line feed; none at the end.
fn next_bytes<I: BufRead>(alloc: Global, input: &mut I) -> Result<Vec<u8>, Failure> {
    let mut bytes = Vec::new(alloc);
    match input.read_until(b'\n', &mut bytes) {
        Ok(_) => Ok(bytes),
        Err(error) => Err(Failure::of_reading(error.kind())),
    }
}

// Writes why a line is refused, where it is, and then its answer.
fn print_answer<O: Write, F: Write>(answer: &Answer, out: &mut O, faults: &mut F) -> Result<(), Failure> {
    if let Err(failure) = print_text(answer.reason.as_str(), faults) {
        return Err(failure);
    }
    print_text(answer.text.as_str(), out)
}

// Answers a line of this number, and writes why it is refused, where it is, and the answer.
fn answer_line<O: Write, F: Write>(
    alloc: Global,
    machines: Machines,
    number: u64,
    line: &[u8],
    out: &mut O,
    faults: &mut F,
) -> Result<Machines, Failure> {
    match machines.answer(alloc, number, line) {
        Ok((machines, answer)) => match print_answer(&answer, out, faults) {
            Ok(()) => Ok(machines),
            Err(failure) => Err(failure),
        },
        Err(_) => Err(Failure::Memory),
    }
}

/// Lets machines answer what a reader gives, line by line: the answer to a line is written and flushed before the next is read,
/// and before it why the line is refused, where it is, to the other writer.
///
/// # Errors
///
/// `File` where a read fails, `Memory` where there is none left, `Output` where a write fails, and `Lines` where there are more
/// lines than numbers of 64 bits. What was answered before stays written.
pub fn converse<I: BufRead, O: Write, F: Write>(
    alloc: Global,
    machines: Machines,
    input: &mut I,
    out: &mut O,
    faults: &mut F,
) -> Result<(), Failure> {
    let mut machines = machines;
    for number in 1..u64::MAX {
        let bytes = match next_bytes(alloc, input) {
            Ok(bytes) => bytes,
            Err(failure) => return Err(failure),
        };
        let text = bytes.as_slice();
        if text.is_empty() {
            return Ok(());
        }
        let (line, _) = first_line(text);
        match answer_line(alloc, machines, number, line, out, faults) {
            Ok(next) => machines = next,
            Err(failure) => return Err(failure),
        }
    }
    Err(Failure::Lines)
}
