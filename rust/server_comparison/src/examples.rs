//! The worked examples, and calls by numbers, of both servers.
use std::prelude::Vec;

use crate::both::Both;
use crate::calls::Call;
use crate::numbers::Numbers;
use crate::trouble::Trouble;
use crate::worked::{EXAMPLES, THREE_JOINED};
use smblease::proved::lease_state::{ClientNo, Content, FILE_LIMIT, FileNo, LeaseKey, Rules};
use std::alloc::Global;

// How many clients take part at most, and how many files and keys there are.
const CLIENTS: u8 = 8;

const FILES: u8 = 4;

// Both servers with these rules and so many files that hold `abc`.
fn with_files(alloc: Global, rules: Rules, count: u8) -> Result<Both, Trouble> {
    let mut files = Vec::new(alloc);
    for _file in 0..count {
        files.push(Content::new(Vec::from_slice(alloc, b"abc")?)?)?;
    }
    Ok(Both::new(alloc, rules, files.as_slice(), FILE_LIMIT)?)
}

// What both answer to queries, for this client.
fn compare_client(both: &Both, alloc: Global, client: u8) -> Result<(), Trouble> {
    for number in 1..=FILES {
        let key = LeaseKey([number; 16]);
        both.compare(alloc, ClientNo(client), key, FileNo(number))?;
    }
    Ok(())
}

fn after(both: Both, alloc: Global, call: Call) -> Result<Both, Trouble> {
    let (both, _) = both.called(alloc, &call.serving(alloc)?)?;
    for client in 1..=CLIENTS {
        compare_client(&both, alloc, client)?;
    }
    Ok(both)
}

fn after_all(both: Both, alloc: Global, calls: &[Call]) -> Result<Both, Trouble> {
    let mut both = both;
    for call in calls {
        both = after(both, alloc, *call)?;
    }
    Ok(both)
}

/// Calls both servers under these rules as the worked examples do, and reports how many calls gave out the same.
pub fn worked_examples(alloc: Global, rules: Rules) -> Result<u64, Trouble> {
    let mut calls = 0u64;
    for example in EXAMPLES {
        let both = with_files(alloc, rules, 2)?;
        let both = after_all(both, alloc, &THREE_JOINED)?;
        let both = after_all(both, alloc, example)?;
        calls = calls.saturating_add(both.calls());
    }
    Ok(calls)
}

/// Calls both servers under these rules 1,000 times by numbers, after all clients joined: with keys that are used on
/// several files, acknowledgments and reconnects that nobody waits for, and timers that run out.
/// Reports how many calls gave out the same.
pub fn calls_by_numbers(alloc: Global, rules: Rules) -> Result<u64, Trouble> {
    let mut numbers = Numbers::new(2024);
    let mut both = with_files(alloc, rules, FILES)?;
    for client in 1..=CLIENTS {
        both = after(both, alloc, Call::Join(client))?;
    }
    for _call in 0..1000 {
        let call = numbers.call(both.opened());
        both = after(both, alloc, call)?;
    }
    Ok(both.calls())
}
