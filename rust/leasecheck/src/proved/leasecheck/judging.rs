// Made by tools/plain_rust from crates/leasecheck/src/judging.rt. Changes belong there.

use std::prelude::{String, Vec, vec};

use crate::proved::lease_texts::{LineFault, first_line, is_passed_over, read_fact};
use crate::proved::leasecheck::failure::Failure;
use crate::proved::leasecheck::refusal::Refusal;
use memchr::{memchr, memrchr};
use smblease::proved::lease_state::Memory;
use smblease::proved::lease_world::{Judge, Verdict};
use std::alloc::{AllocError, Global};
use std::io::{ErrorKind, Read};

// How many bytes are read at a time.
const BLOCK: usize = 65_536;

// A record that is being judged, and the number of its next line.
#[derive(Debug)]
struct Progress {
    judge: Judge,
    number: u64,
}

// Why a line isn't taken.
#[derive(Clone, Copy, Debug)]
enum Stop {
    /// There is no number for it.
    Lines,
    Memory,
    Refused,
}

impl Progress {
    fn new(alloc: Global) -> Progress {
        Progress { judge: Judge::new(alloc), number: 1 }
    }

    // Takes a line, in place.
    #[inline(always)]
    fn take_line(&mut self, alloc: Global, line: &[u8]) -> Result<(), Stop> {
        if self.number == u64::MAX {
            return Err(Stop::Lines);
        }
        match take_fact(alloc, &mut self.judge, line) {
            Ok(()) => {
                self.number += 1;
                Ok(())
            }
            Err(LineFault::Memory) => Err(Stop::Memory),
            Err(LineFault::Refused) => Err(Stop::Refused),
        }
    }

    // What is told of the next line, which isn't taken.
    #[inline(never)]
    fn refusal(&self, alloc: Global, line: &[u8], stop: Stop) -> Refusal {
        match stop {
            Stop::Lines => Refusal::bare(Failure::Lines),
            Stop::Memory => Refusal::bare(Failure::Memory),
            Stop::Refused => Refusal::of_fact(alloc, self.number, line),
        }
    }

    // Takes all lines of a text.
    fn take_lines(self, alloc: Global, text: &[u8]) -> Result<Progress, Refusal> {
        let mut progress = self;
        let mut rest = text;
        while !rest.is_empty() {
            let (line, behind) = first_line(rest);
            match progress.take_line(alloc, line) {
                Ok(()) => rest = behind,
                Err(stop) => return Err(progress.refusal(alloc, line, stop)),
            }
        }
        Ok(progress)
    }

    // Takes the lines that end within a block. What follows the last of them has begun a line.
    fn take_whole_lines(self, alloc: Global, begun: &mut Vec<u8>, block: &[u8]) -> Result<Progress, Refusal> {
        let Some(place) = memrchr(b'\n', block) else {
            begun.extend_from_slice(block)?;
            return Ok(self);
        };
        match self.take_lines(alloc, &block[..place + 1]) {
            Ok(progress) => {
                begun.extend_from_slice(&block[place + 1..])?;
                Ok(progress)
            }
            Err(refusal) => Err(refusal),
        }
    }

    // Takes the lines that end within a block, of which the first may have begun before it.
    fn take_block(self, alloc: Global, begun: &mut Vec<u8>, block: &[u8]) -> Result<Progress, Refusal> {
        let Some(place) = memchr(b'\n', block) else {
            begun.extend_from_slice(block)?;
            return Ok(self);
        };
        begun.extend_from_slice(&block[..place + 1])?;
        match self.take_lines(alloc, begun.as_slice()) {
            Ok(progress) => {
                begun.clear();
                progress.take_whole_lines(alloc, begun, &block[place + 1..])
            }
            Err(refusal) => Err(refusal),
        }
    }

    // The verdict, where nothing follows a line that had begun.
    fn end(self, alloc: Global, begun: &[u8]) -> Result<Verdict, Refusal> {
        match self.take_lines(alloc, begun) {
            Ok(whole) => Ok(whole.judge.verdict()),
            Err(refusal) => Err(refusal),
        }
    }
}

// The judge takes a line.
#[inline(always)]
fn take_fact(alloc: Global, judge: &mut Judge, line: &[u8]) -> Result<(), LineFault> {
    if is_passed_over(line) {
        return Ok(());
    }
    let read = read_fact(alloc, line);
    match &read {
        Ok(fact) => match judge.add(fact) {
            Ok(()) => Ok(()),
            Err(Memory) => Err(LineFault::Memory),
        },
        Err(fault) => Err(*fault),
    }
}

// What is refused where a read fails.
fn unread(kind: ErrorKind) -> Refusal {
    Refusal { failure: Failure::of_reading(kind), second: None }
}

// Reads into the block, and gives how many bytes there are; none is the end. A read that was interrupted is tried again.
fn read_block<I: Read>(input: &mut I, block: &mut [u8]) -> Result<usize, Refusal> {
    for _turn in 0..u64::MAX {
        match input.read(block) {
            Ok(count) => return Ok(count),
            Err(error) => {
                if error.kind() != ErrorKind::Interrupted {
                    return Err(unread(error.kind()));
                }
            }
        }
    }
    Err(unread(ErrorKind::Interrupted))
}

// Judges what a reader gives, block by block.
fn judge_blocks<I: Read>(alloc: Global, input: &mut I, block: &mut [u8]) -> Result<Verdict, Refusal> {
    let mut progress = Progress::new(alloc);
    let mut begun = Vec::new(alloc);
    for _round in 0..u64::MAX {
        let count = read_block(input, block)?;
        if count == 0 {
            return progress.end(alloc, begun.as_slice());
        }
        match progress.take_block(alloc, &mut begun, &block[..count]) {
            Ok(next) => progress = next,
            Err(refusal) => return Err(refusal),
        }
    }
    Err(Refusal { failure: Failure::Lines, second: None })
}

// Memory for a block.
fn new_block(alloc: Global) -> Result<Vec<u8>, AllocError> {
    vec![in alloc; 0u8; BLOCK]
}

/// The verdict on the record that a reader gives, line by line.
///
/// # Errors
///
/// `Line` with the number of the first line that is refused, and what is said of that, `File` where the reader fails, `Memory`
/// where there is none left, and `Lines` where there are more lines than numbers of 64 bits.
pub fn judge_text<I: Read>(alloc: Global, input: &mut I) -> Result<Verdict, Refusal> {
    let mut block = new_block(alloc)?;
    judge_blocks(alloc, input, block.as_mut_slice())
}

/// The line of a verdict.
pub fn push_verdict(text: &mut String, verdict: &Verdict) -> Result<(), AllocError> {
    match verdict {
        Verdict::Safe => text.push_str("safe\n"),
        Verdict::Unsafe { place, rule } => {
            let rule = rule.number();
            writeln!(text, "unsafe {place} {rule}")
        }
        Verdict::Malformed { place } => writeln!(text, "malformed {place}"),
    }
}

/// The exit status of a verdict.
pub fn status_of(verdict: &Verdict) -> u8 {
    match verdict {
        Verdict::Safe => 0,
        Verdict::Malformed { .. } => 1,
        Verdict::Unsafe { .. } => 3,
    }
}
