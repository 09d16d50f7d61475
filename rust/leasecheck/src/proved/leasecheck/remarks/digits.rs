// Made by tools/plain_rust from crates/leasecheck/src/remarks/digits.rt. Changes belong there.

use crate::proved::lease_texts::push_quoted;
use crate::proved::leasecheck::hexadecimal::{digits_in, split_byte, without_prefix};
use std::alloc::{AllocError, Global};
use std::prelude::String;

fn is_digit(code: u8) -> bool {
    code.is_ascii_hexdigit()
}

// A text from its first character on that is no digit.
fn from_other(text: &[u8]) -> &[u8] {
    let mut rest = text;
    while let [code, behind @ ..] = rest {
        if !is_digit(*code) {
            return rest;
        }
        rest = behind;
    }
    rest
}

fn are_digits(high: u8, low: u8) -> bool {
    is_digit(high) && is_digit(low)
}

// The same of a text that may have a separator between two bytes.
fn from_bad(text: &[u8]) -> &[u8] {
    let mut rest = text;
    while rest.len() > 3 {
        if !are_digits(rest[0], rest[1]) {
            return from_other(rest);
        }
        rest = split_byte(rest).1;
    }
    from_other(rest)
}

fn push_bad_digit(alloc: Global, text: &mut String, place: usize, code: u8) -> Result<(), AllocError> {
    write!(text, "HEX, character {place}: a hexadecimal digit; it is ")?;
    push_quoted(alloc, text, &[code])?;
    text.push_str("\n")
}

/// What is said of an argument that isn't bytes: its first character that is no digit where there
/// has to be one, or else that the number of digits is odd.
pub(crate) fn hex_remark(alloc: Global, argument: &[u8]) -> Result<String, AllocError> {
    let written = without_prefix(argument);
    match from_bad(written) {
        [] => {
            let count = digits_in(alloc, written)?.len();
            let mut text = String::new(alloc);
            writeln!(text, "HEX: two digits for each byte; there are {count} digits")?;
            Ok(text)
        }
        [code, rest @ ..] => {
            let place = argument.len().saturating_sub(rest.len());
            let mut text = String::new(alloc);
            push_bad_digit(alloc, &mut text, place, *code)?;
            Ok(text)
        }
    }
}
