// Made by tools/plain_rust from crates/lease_texts/src/first.rt. Changes belong there.

//! The first field of a line, read where it stands.

use crate::proved::lease_texts::pieces::split_first;
use crate::proved::lease_texts::words::{ordinal_digit, ordinal_in};
use smblease::proved::lease_facts::is;

/// What follows the first field, where that is this word.
#[inline(always)]
pub(crate) fn after_word<'a>(line: &'a [u8], word: &[u8]) -> Option<Option<&'a [u8]>> {
    if line.len() < word.len() {
        return None;
    }
    let (head, tail) = line.split_at(word.len());
    if !is(head, word) {
        return None;
    }
    match tail {
        [] => Some(None),
        [next, rest @ ..] if *next == b' ' => Some(Some(rest)),
        _ => None,
    }
}

// An ordinal of one digit, with what follows it.
#[inline(always)]
fn one_digit(digit: u8, rest: Option<&[u8]>) -> Option<(u8, Option<&[u8]>)> {
    match ordinal_digit(digit) {
        Some(ordinal) => Some((ordinal, rest)),
        None => None,
    }
}

#[inline(never)]
fn any_ordinal(line: &[u8]) -> Option<(u8, Option<&[u8]>)> {
    let (field, rest) = split_first(b' ', line);
    match ordinal_in(field) {
        Some(ordinal) => Some((ordinal, rest)),
        None => None,
    }
}

/// The first field as the number of a client or of a file, and what follows it. Most are of one digit.
#[inline(always)]
pub(crate) fn first_ordinal(line: &[u8]) -> Option<(u8, Option<&[u8]>)> {
    match line {
        [digit] => one_digit(*digit, None),
        [digit, next, rest @ ..] if *next == b' ' => one_digit(*digit, Some(rest)),
        _ => any_ordinal(line),
    }
}
