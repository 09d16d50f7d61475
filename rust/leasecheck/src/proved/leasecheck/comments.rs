// Made by tools/plain_rust from crates/leasecheck/src/comments.rt. Changes belong there.

use std::prelude::Vec;

use crate::proved::lease_texts::{first_line, is_passed_over};
use smblease::proved::lease_state::{Bytes, Memory};
use std::alloc::Global;

// What a line says that is a comment.
fn comment_in(line: &[u8]) -> &[u8] {
    match line {
        [b'#', b' ', comment @ ..] | [b'#', comment @ ..] => comment,
        _ => &[],
    }
}

// Adds what the line before says, where this one tells a fact.
fn push_comment(alloc: Global, comments: &mut Vec<Bytes>, before: &[u8], line: &[u8]) -> Result<(), Memory> {
    if !is_passed_over(line) {
        comments.push(Bytes::new(Vec::from_slice(alloc, comment_in(before))?))?;
    }
    Ok(())
}

/// What the text of a record says of its facts, one for each: the comment on the line before it, which is empty where that line is
/// none.
///
/// # Errors
///
/// `Memory` where there is none left.
pub(crate) fn comments_of(alloc: Global, text: &[u8]) -> Result<Vec<Bytes>, Memory> {
    let mut found = Vec::new(alloc);
    let mut before: &[u8] = &[];
    let mut rest = text;
    while !rest.is_empty() {
        let (line, behind) = first_line(rest);
        push_comment(alloc, &mut found, before, line)?;
        before = line;
        rest = behind;
    }
    Ok(found)
}
