// Made by tools/plain_rust from crates/lease_texts/src/quoting.rt. Changes belong there.

use std::prelude::String;

use std::alloc::{AllocError, Global};

fn is_plain(byte: u8) -> bool {
    byte >= 32 && byte < 127 && !(byte == b'"' || byte == b'\\')
}

fn push_escaped(alloc: Global, text: &mut String, byte: u8) -> Result<(), AllocError> {
    if is_plain(byte) {
        text.push(char::from(byte))
    } else {
        let digits = std::ports::hex::encode(alloc, [byte])?;
        write!(text, "\\x{digits}")
    }
}

/// Appends bytes as they are quoted: those that aren't printable ASCII, quotation marks and backslashes as `\xHH`.
///
/// # Errors
///
/// `AllocError` where there is no memory for them.
pub fn push_all_escaped(alloc: Global, text: &mut String, bytes: &[u8]) -> Result<(), AllocError> {
    for byte in bytes {
        push_escaped(alloc, text, *byte)?;
    }
    Ok(())
}

// The first 40 bytes, where there are so many.
fn first_quoted(bytes: &[u8]) -> &[u8] {
    if bytes.len() > 40 { bytes.split_at(40).0 } else { bytes }
}

fn quoted_end(bytes: &[u8]) -> &'static str {
    if bytes.len() > 40 { "..." } else { "" }
}

/// Quotes bytes: those that aren't printable ASCII, quotation marks and backslashes are written as
/// `\xHH`, and of more than 40 bytes the first 40 are quoted, with `...` after them.
pub fn push_quoted(alloc: Global, text: &mut String, bytes: &[u8]) -> Result<(), AllocError> {
    text.push_str("\"")?;
    push_all_escaped(alloc, text, first_quoted(bytes))?;
    text.push_str("\"")?;
    text.push_str(quoted_end(bytes))
}
