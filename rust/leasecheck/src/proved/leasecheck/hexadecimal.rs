// Made by tools/plain_rust from crates/leasecheck/src/hexadecimal.rt. Changes belong there.

use std::prelude::Vec;

use crate::proved::leasecheck::failure::Failure;
use std::alloc::{AllocError, Global};
use std::ports::hex::FromHexError;

pub(crate) fn without_prefix(text: &[u8]) -> &[u8] {
    text.strip_prefix(b"0x").unwrap_or(text)
}

fn is_separator(code: u8) -> bool {
    code == b':' || code == b' '
}

// A byte's two digits, and the text from the next byte on.
pub(crate) fn split_byte(text: &[u8]) -> (&[u8], &[u8]) {
    let (digits, behind) = text.split_at(2);
    if is_separator(behind[0]) { (digits, &behind[1..]) } else { (digits, behind) }
}

// The digits of a text without what stands between its bytes.
pub(crate) fn digits_in(alloc: Global, text: &[u8]) -> Result<Vec<u8>, AllocError> {
    let mut digits = Vec::new(alloc);
    let mut rest = text;
    while rest.len() > 3 {
        let (byte, behind) = split_byte(rest);
        digits.extend_from_slice(byte)?;
        rest = behind;
    }
    digits.extend_from_slice(rest)?;
    Ok(digits)
}

/// The bytes that an argument gives: hexadecimal digits of either case, two a byte. They may begin
/// with `0x`, and one colon or one space may stand between two bytes.
///
/// # Errors
///
/// `Hex` where the text writes no bytes so, and `Memory` where there is none for them.
pub fn argument_bytes(alloc: Global, argument: &str) -> Result<Vec<u8>, Failure> {
    let digits = digits_in(alloc, without_prefix(argument.as_bytes()))?;
    match std::ports::hex::decode(alloc, digits.as_slice()) {
        Ok(bytes) => Ok(bytes),
        Err(FromHexError::OutOfMemory) => Err(Failure::Memory),
        Err(_) => Err(Failure::Hex),
    }
}
