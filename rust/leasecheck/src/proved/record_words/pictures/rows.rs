// Made by tools/plain_rust from crates/record_words/src/pictures/rows.rt. Changes belong there.

use crate::proved::record_words::pictures::lanes::at;
use crate::proved::record_words::pictures::requests::count_sent;
use smblease::proved::lease_facts::Passage;
use smblease::proved::lease_state::Memory;
use std::alloc::{AllocError, Global};
use std::prelude::Vec;

/// The rows of a picture, from 0: one for each fact, and one for each request that is sent, above the facts that came later.
#[derive(Debug)]
pub struct Rows {
    facts: Vec<u16>,
    count: u16,
}

// Gives rows to the facts up to this one, above which so many requests were sent.
fn fill(facts: &mut Vec<u16>, until: usize, sent: usize) -> Result<(), AllocError> {
    for index in facts.len()..until {
        facts.push(at(index.saturating_add(sent)))?;
    }
    Ok(())
}

impl Rows {
    /// The rows of so many facts, and of the requests among these passages.
    pub fn of(alloc: Global, facts: usize, passages: &[Passage]) -> Result<Rows, Memory> {
        let mut rows = Vec::new(alloc);
        let mut sent = 0usize;
        for passage in passages {
            if let Passage::Sent { facts: before, .. } = passage {
                fill(&mut rows, facts.min(*before), sent)?;
                sent = sent.saturating_add(1);
            }
        }
        fill(&mut rows, facts, sent)?;
        Ok(Rows { facts: rows, count: at(facts.saturating_add(count_sent(passages))) })
    }

    /// How many there are.
    pub fn count(&self) -> u16 {
        self.count
    }

    /// The row of the fact at this index, or the one below all of them.
    pub fn of_fact(&self, index: usize) -> u16 {
        self.facts.get(index).copied().unwrap_or(self.count)
    }
}
