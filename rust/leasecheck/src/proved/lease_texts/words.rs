// Made by tools/plain_rust from crates/lease_texts/src/words.rt. Changes belong there.

//! Words: the value that a word says, and the word that is written for a value.
use std::prelude::{String, Vec};

use crate::proved::lease_texts::fault::LineFault;
use smblease::proved::lease_client::Settlement;
use smblease::proved::lease_facts::is;
use smblease::proved::lease_state::{Access, Bytes, FILE_LIMIT, LeaseState, Order, Rise, Rules, Share};
use std::alloc::{AllocError, Global};
use std::ports::hex::{FromHex, FromHexError};
use std::ports::uuid::Uuid;

// ---- numbers

// The number whose decimal digits these are.
pub(crate) fn number_in(digits: &[u8]) -> Option<u64> {
    match digits {
        [] | [b'0', _, ..] => None,
        _ => number_of(digits),
    }
}

fn number_of(digits: &[u8]) -> Option<u64> {
    let mut value = 0u64;
    for digit in digits {
        value = with_digit(value, *digit)?;
    }
    Some(value)
}

// The number with one more digit at its end.
fn with_digit(value: u64, digit: u8) -> Option<u64> {
    if !digit.is_ascii_digit() {
        return None;
    }
    value.checked_mul(10)?.checked_add(u64::from(digit - b'0'))
}

// The number from 1 to 255 whose decimal digits these are. Most are of one digit.
pub(crate) fn ordinal_in(digits: &[u8]) -> Option<u8> {
    match digits {
        [digit] => ordinal_digit(*digit),
        _ => match u8::try_from(number_in(digits)?) {
            Ok(0) | Err(_) => None,
            Ok(ordinal) => Some(ordinal),
        },
    }
}

pub(crate) fn ordinal_digit(digit: u8) -> Option<u8> {
    if digit.is_ascii_digit() && digit != b'0' { Some(digit - b'0') } else { None }
}

pub(crate) fn offset_in(digits: &[u8]) -> Option<u32> {
    u32::try_from(number_in(digits)?).ok()
}

// A digit.
fn push_digit(text: &mut String, digit: u8) -> Result<(), AllocError> {
    text.push(char::from(b'0' + digit))
}

// The digits of a number. A line has some short ones, and a formatter costs several times what their digits do.
pub(crate) fn push_number(text: &mut String, number: u64) -> Result<(), AllocError> {
    if number < 10 {
        return push_digit(text, number as u8);
    }
    push_number(text, number / 10)?;
    push_digit(text, (number % 10) as u8)
}

// ---- bytes

// Bytes as digits, or a hyphen for none.
pub(crate) fn bytes_in(alloc: Global, digits: &[u8]) -> Result<Bytes, LineFault> {
    match digits {
        [] => Err(LineFault::Refused),
        [b'-'] => Ok(Bytes::new(Vec::new(alloc))),
        _ => match std::ports::hex::decode(alloc, digits) {
            Ok(bytes) => Ok(Bytes::new(bytes)),
            Err(FromHexError::OutOfMemory) => Err(LineFault::Memory),
            Err(_) => Err(LineFault::Refused),
        },
    }
}

// No more of them than a file holds.
pub(crate) fn content_in(alloc: Global, digits: &[u8]) -> Result<Bytes, LineFault> {
    let bytes = bytes_in(alloc, digits)?;
    if bytes.len() > FILE_LIMIT {
        return Err(LineFault::Refused);
    }
    Ok(bytes)
}

/// The digits of bytes, or a hyphen where there are none.
pub fn digits_of(alloc: Global, bytes: &[u8]) -> Result<String, AllocError> {
    if bytes.is_empty() { String::from_str(alloc, "-") } else { std::ports::hex::encode(alloc, bytes) }
}

// So many bytes.
pub(crate) fn sized_in<const N: usize>(digits: &[u8]) -> Option<[u8; N]> {
    <[u8; N] as FromHex>::from_hex(digits).ok()
}

pub(crate) fn guid_in(text: &[u8]) -> Option<[u8; 16]> {
    match Uuid::try_parse_ascii(text) {
        Ok(guid) => Some(guid.into_bytes()),
        Err(_) => None,
    }
}

// ---- values with words of their own

pub(crate) fn access_in(word: &[u8]) -> Option<Access> {
    match word {
        b"r" => Some(Access::Read),
        b"w" => Some(Access::Write),
        b"rw" => Some(Access::ReadWrite),
        _ => None,
    }
}

pub(crate) fn access_word(access: Access) -> &'static str {
    match access {
        Access::Read => "r",
        Access::Write => "w",
        Access::ReadWrite => "rw",
    }
}

/// The rules of a server that a word stands for: `by-client` or `by-key`, a comma, and `as-free` or `whole`. None where it is
/// no such word.
pub fn rules_in(word: &[u8]) -> Option<Rules> {
    let (order, rise) = match word {
        _ if is(word, b"by-client,as-free") => (Order::ByClient, Rise::AsFree),
        _ if is(word, b"by-client,whole") => (Order::ByClient, Rise::Whole),
        _ if is(word, b"by-key,as-free") => (Order::ByKey, Rise::AsFree),
        _ if is(word, b"by-key,whole") => (Order::ByKey, Rise::Whole),
        _ => return None,
    };
    Some(Rules { order, rise })
}

pub(crate) fn rules_word(rules: Rules) -> &'static str {
    match (rules.order, rules.rise) {
        (Order::ByClient, Rise::AsFree) => "by-client,as-free",
        (Order::ByClient, Rise::Whole) => "by-client,whole",
        (Order::ByKey, Rise::AsFree) => "by-key,as-free",
        (Order::ByKey, Rise::Whole) => "by-key,whole",
    }
}

pub(crate) fn share_in(word: &[u8]) -> Option<Share> {
    match word {
        b"-" => Some(Share::Nothing),
        b"r" => Some(Share::Read),
        b"w" => Some(Share::Write),
        b"rw" => Some(Share::ReadWrite),
        _ => None,
    }
}

pub(crate) fn share_word(share: Share) -> &'static str {
    match share {
        Share::Nothing => "-",
        Share::Read => "r",
        Share::Write => "w",
        Share::ReadWrite => "rw",
    }
}

// The state of a number up to 7.
fn state_of_wire(bits: u32) -> LeaseState {
    LeaseState::from_wire(bits)
}

pub(crate) fn state_in(word: &[u8]) -> Option<LeaseState> {
    match word {
        b"none" => Some(state_of_wire(0)),
        b"R" => Some(state_of_wire(1)),
        b"H" => Some(state_of_wire(2)),
        b"RH" => Some(state_of_wire(3)),
        b"W" => Some(state_of_wire(4)),
        b"RW" => Some(state_of_wire(5)),
        b"WH" => Some(state_of_wire(6)),
        b"RWH" => Some(state_of_wire(7)),
        _ => None,
    }
}

/// The letters of a state in the order R, W, H, or `none`.
pub fn state_letters(state: LeaseState) -> &'static str {
    let reads = state.caches_reads();
    let writes = state.caches_writes();
    let handles = state.caches_handles();
    match (reads, writes, handles) {
        (false, false, false) => "none",
        (true, false, false) => "R",
        (false, true, false) => "W",
        (false, false, true) => "H",
        (true, true, false) => "RW",
        (true, false, true) => "RH",
        (false, true, true) => "WH",
        (true, true, true) => "RWH",
    }
}

pub(crate) fn way_in(word: &[u8]) -> Option<bool> {
    match word {
        _ if is(word, b"buffered") => Some(true),
        _ if is(word, b"through") => Some(false),
        _ => None,
    }
}

pub(crate) fn outcome_in(word: &[u8]) -> Option<Settlement> {
    match word {
        _ if is(word, b"done") => Some(Settlement::Done),
        _ if is(word, b"failed") => Some(Settlement::Failed),
        _ if is(word, b"unknown") => Some(Settlement::Unknown),
        _ if is(word, b"lost") => Some(Settlement::Lost),
        _ => None,
    }
}

/// What became of a write, in a word.
pub fn outcome_word(outcome: Settlement) -> &'static str {
    match outcome {
        Settlement::Done => "done",
        Settlement::Failed => "failed",
        Settlement::Unknown => "unknown",
        Settlement::Lost => "lost",
    }
}
