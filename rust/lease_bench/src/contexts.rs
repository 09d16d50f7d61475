//! Create contexts that are read or written many times, for `bench/contexts`.
use std::prelude::Vec;

use smblease::proved::lease_state::{FileId, LeaseKey, LeaseState, Memory};
use smblease::proved::lease_wire::{CreateAsk, read_create, write_create_ask};
use std::alloc::Global;

// A request with a lease of RWH, a foreign context and a durable open.
const CHAIN: [u8; 120] = *b"\x38\0\0\0\x10\0\x04\0\0\0\x18\0\x20\0\0\0RqLs\0\0\0\0\
\0\x01\x02\x03\x04\x05\x06\x07\x08\x09\x0a\x0b\x0c\x0d\x0e\x0f\x07\0\0\0\0\0\0\0\0\0\0\0\0\0\0\0\
\x18\0\0\0\x10\0\x04\0\xff\xff\0\0\0\0\0\0MxAc\0\0\0\0\
\0\0\0\0\x10\0\x04\0\0\0\x18\0\x10\0\0\0DHnQ\0\0\0\0\0\0\0\0\0\0\0\0\0\0\0\0\0\0\0\0";

fn read_many(count: u32) -> u64 {
    let mut text = CHAIN;
    let mut sum = 0u64;
    for turn in 0..count {
        text[24] = (turn % 256) as u8;
        if let Ok(ask) = read_create(&text)
            && let Some((key, _)) = ask.lease
        {
            sum = sum.wrapping_add(u64::from(key.0[0]));
        }
    }
    sum
}

// The ask of 96 bytes that is written each time.
fn same_ask(turn: u32) -> CreateAsk {
    CreateAsk { lease: Some((LeaseKey([(turn % 256) as u8; 16]), LeaseState::from_wire(3))), durable: true, reconnect: None }
}

// Asks for other contexts from turn to turn, of none to 136 bytes.
fn other_ask(turn: u32) -> CreateAsk {
    let key = LeaseKey([(turn % 256) as u8; 16]);
    CreateAsk {
        lease: (!turn.is_multiple_of(4)).then_some((key, LeaseState::from_wire(turn))),
        durable: turn.is_multiple_of(3),
        reconnect: (turn % 8 == 3).then_some(FileId(u64::from(turn))),
    }
}

fn write_many<F: Fn(u32) -> CreateAsk>(alloc: Global, count: u32, ask_at: F) -> Result<u64, Memory> {
    let mut out = Vec::new(alloc);
    let mut sum = 0u64;
    for turn in 0..count {
        out.clear();
        write_create_ask(&ask_at(turn), &mut out)?;
        sum = sum.wrapping_add(u64::from(out.get(30).copied().unwrap_or(0)));
    }
    Ok(sum)
}

/// `read`, `write` or `write_others`, and how often: a number for what was read or written.
pub(crate) fn sum_of(alloc: Global, words: &[&str]) -> Option<u64> {
    let count = words.get(1)?.parse::<u32>().ok()?;
    match *words.first()? {
        "read" => Some(read_many(count)),
        "write" => write_many(alloc, count, same_ask).ok(),
        "write_others" => write_many(alloc, count, other_ask).ok(),
        _ => None,
    }
}
