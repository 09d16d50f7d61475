// Made by tools/plain_rust from crates/lease_texts/src/lines.rt. Changes belong there.

use memchr::memchr;
use std::simd::prelude::*;

// How many bytes are looked at together for the end of a line. Most lines of records are shorter.
const NEAR: usize = 32;

/// Whether a line of a schedule or of a record counts for nothing but its number: it is empty, or a remark.
pub fn is_passed_over(line: &[u8]) -> bool {
    matches!(line, [] | [b'#', ..])
}

// Where the first line feed is, where that is near.
#[inline(always)]
fn near_feed(text: &[u8]) -> Option<usize> {
    let feeds = u8x32::from_slice(text).simd_eq(u8x32::splat(b'\n')).to_bitmask();
    if feeds == 0 {
        return None;
    }
    Some(feeds.trailing_zeros() as usize)
}

// Where the first line feed is.
#[inline(always)]
fn first_feed(text: &[u8]) -> Option<usize> {
    if text.len() >= NEAR
        && let Some(place) = near_feed(text)
    {
        return Some(place);
    }
    memchr(b'\n', text)
}

/// The first line of a text, without its line feed, and what follows.
pub fn first_line(text: &[u8]) -> (&[u8], &[u8]) {
    match first_feed(text) {
        Some(place) => (&text[..place], &text[place + 1..]),
        None => (text, &[]),
    }
}
