// Made by tools/plain_rust from crates/leasecheck/src/recording.rt. Changes belong there.

use std::prelude::{String, Vec};

use crate::proved::lease_texts::{Said, push_line};
use crate::proved::leasecheck::failure::Failure;
use crate::proved::leasecheck::idle::{push_all_idle, push_idle_before};
use crate::proved::leasecheck::messages::push_lines_of;
use crate::proved::leasecheck::printing::{print_text, put};
use smblease::proved::lease_facts::Fact;
use smblease::proved::lease_state::{Order, Reply, Rise, Rules};
use smblease::proved::lease_world::Idle;
use std::alloc::{AllocError, Global};
use std::io::Write;

// How many bytes of a record's text gather before they are written.
const BLOCK: usize = 65_536;

/// The record of a run, which is safe, the messages that it speaks of, where they are wanted, the events that did nothing, where
/// these are, with the numbers of the lines in which events stand, and the rules of the server.
pub struct Record {
    pub facts: Vec<Fact>,
    pub messages: Vec<Reply>,
    pub lines: Vec<u64>,
    pub idle: Vec<Idle>,
    pub rules: Rules,
}

// What isn't written yet of a text that is told.
struct Gathered {
    text: String,
}

// A comment line with the rules of a server, where they aren't the profile's.
fn push_rules(text: &mut String, rules: Rules) -> Result<(), AllocError> {
    match (rules.order, rules.rise) {
        (Order::ByClient, Rise::AsFree) => Ok(()),
        (Order::ByClient, Rise::Whole) | (Order::ByKey, _) => push_line(text, "# rules", &[Said::Rules(rules)]),
    }
}

// What stands after the record of a run: the rules, and that it is safe, with a sign that this is none of the facts.
fn push_safe(text: &mut String, rules: Rules) -> Result<(), AllocError> {
    push_rules(text, rules)?;
    text.push_str("# safe\n")
}

fn push_end(text: &mut String, recorded: &Record, idle: &[Idle]) -> Result<(), AllocError> {
    push_all_idle(text, recorded.lines.as_slice(), idle)?;
    push_safe(text, recorded.rules)
}

fn push_told<'a>(
    text: &mut String,
    lines: &[u64],
    count: usize,
    fact: &Fact,
    messages: &'a [Reply],
    idle: &'a [Idle],
) -> Result<(&'a [Reply], &'a [Idle]), AllocError> {
    let later = push_idle_before(text, lines, count, idle)?;
    let behind = push_lines_of(text, fact, messages)?;
    Ok((behind, later))
}

impl Gathered {
    fn new(alloc: Global) -> Gathered {
        Gathered { text: String::new(alloc) }
    }

    // The lines of a fact, before which so many are: of the events that did nothing before it, of its message if it speaks of
    // one of these, and its own. The messages and the events after it are given.
    fn push<'a>(
        &mut self,
        lines: &[u64],
        count: usize,
        fact: &Fact,
        messages: &'a [Reply],
        idle: &'a [Idle],
    ) -> Result<(&'a [Reply], &'a [Idle]), Failure> {
        match push_told(&mut self.text, lines, count, fact, messages, idle) {
            Ok(behind) => Ok(behind),
            Err(_) => Err(Failure::Memory),
        }
    }

    // The lines of the events that did nothing after all facts, of the rules and of the verdict.
    fn push_end(&mut self, recorded: &Record, idle: &[Idle]) -> Result<(), Failure> {
        match push_end(&mut self.text, recorded, idle) {
            Ok(()) => Ok(()),
            Err(_) => Err(Failure::Memory),
        }
    }

    // Writes what has gathered, where that fills a block.
    fn write_block<O: Write>(&mut self, out: &mut O) -> Result<(), Failure> {
        if self.text.len() < BLOCK {
            return Ok(());
        }
        put(self.text.as_bytes(), out)?;
        self.text.clear();
        Ok(())
    }
}

// Writes the lines of the facts but for what has gathered last, and gives the events that did nothing after them.
fn write_facts<'a, O: Write>(recorded: &'a Record, gathered: &mut Gathered, out: &mut O) -> Result<&'a [Idle], Failure> {
    let lines = recorded.lines.as_slice();
    let mut messages = recorded.messages.as_slice();
    let mut idle = recorded.idle.as_slice();
    for (count, fact) in recorded.facts.as_slice().iter().enumerate() {
        match gathered.push(lines, count, fact, messages, idle) {
            Ok((behind, later)) => {
                messages = behind;
                idle = later;
            }
            Err(failure) => return Err(failure),
        }
        if let Err(failure) = gathered.write_block(out) {
            return Err(failure);
        }
    }
    Ok(idle)
}

/// The text of a record as a whole.
///
/// # Errors
///
/// `Memory` where there is none left.
pub fn record_text(alloc: Global, recorded: &Record) -> Result<Vec<u8>, Failure> {
    let mut text = Vec::new(alloc);
    match write_record(alloc, recorded, &mut text) {
        Ok(()) => Ok(text),
        Err(_) => Err(Failure::Memory),
    }
}

/// Writes the text of a record, as long as it may be, in blocks.
///
/// # Errors
///
/// `Memory` where there is none left for what follows the blocks that were written, and `Output` where a write fails.
pub fn write_record<O: Write>(alloc: Global, recorded: &Record, out: &mut O) -> Result<(), Failure> {
    let mut gathered = Gathered::new(alloc);
    let idle = match write_facts(recorded, &mut gathered, out) {
        Ok(idle) => idle,
        Err(failure) => return Err(failure),
    };
    match gathered.push_end(recorded, idle) {
        Ok(()) => print_text(gathered.text.as_str(), out),
        Err(failure) => Err(failure),
    }
}
