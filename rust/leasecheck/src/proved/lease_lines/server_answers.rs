// Made by tools/plain_rust from crates/lease_lines/src/server_answers.rt. Changes belong there.

use std::prelude::{String, Vec};

use crate::proved::lease_texts::{Said, digits_of, push_fact, push_line};
use smblease::proved::lease_facts::Fact;
use smblease::proved::lease_state::FileId;
use smblease::proved::share_server::Out;
use std::alloc::AllocError;

fn push_out(text: &mut String, given: Out) -> Result<(), AllocError> {
    match given {
        Out::Sent(client, told) => push_line(text, "sent", &[Said::Client(client), Said::Reply(&told)]),
        Out::Opened(file, client) => push_fact(text, &Fact::Opened(file, client)),
        Out::Changed(file, client, number, patch) => push_fact(text, &Fact::Changed(file, client, number, patch)),
    }
}

/// Adds the lines of what a call gives out.
pub fn push_outs(text: &mut String, outs: Vec<Out>) -> Result<(), AllocError> {
    for given in outs {
        push_out(text, given)?;
    }
    Ok(())
}

/// Adds the answer to a call: whether it applied.
pub fn push_done(text: &mut String, applies: bool) -> Result<(), AllocError> {
    text.push_str(if applies { "answer done\n" } else { "answer nothing\n" })
}

/// Adds the answer yes or no.
pub fn push_yes(text: &mut String, holds: bool) -> Result<(), AllocError> {
    text.push_str(if holds { "answer yes\n" } else { "answer no\n" })
}

/// Adds the answer of a FileId, or that there is none.
pub fn push_fid(text: &mut String, kept: Option<FileId>) -> Result<(), AllocError> {
    match kept {
        Some(fid) => {
            let fid = fid.0;
            writeln!(text, "answer fid {fid}")
        }
        None => text.push_str("answer none\n"),
    }
}

/// Adds the answer of a file's bytes, or that there are none.
pub fn push_content(text: &mut String, content: Option<&[u8]>) -> Result<(), AllocError> {
    match content {
        Some(bytes) => {
            let digits = digits_of(*text.allocator(), bytes)?;
            writeln!(text, "answer bytes {digits}")
        }
        None => text.push_str("answer none\n"),
    }
}
