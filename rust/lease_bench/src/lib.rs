//! Calls of the crates, for the scripts of `bench` to time from outside. The first word says of what:
//!
//!     lease_bench contexts TASK COUNT                   create contexts, read or written
//!     lease_bench captures CLIENTS FILES OPENS [HOW]    a capture, walked
//!     lease_bench client TASK COUNT                     a client, its writes or its cached reads
//!     lease_bench server CALLS [STANDING [same]]        a session of a server
//!     lease_bench manager FAMILY SIZE..                 a manager
//!     lease_bench each                                  a little of all of these
//!
//! Prints numbers for what was made, so that nothing can be left out, and by which other programs are seen to do the same.
#![no_std]

extern crate smblease_std as std;

use std::prelude::{AllocGlobal, HostRuntime, String, Vec, format, print};

mod captures;
mod client;
mod contexts;
mod manager;
mod server;

use std::alloc::{AllocError, Global};
use std::process::ExitCode;
use std::rt::Env;
use std::{env, io};

// A little of each, a line each.
const EACH: [&str; 5] =
    ["contexts read 1000", "captures 4 6 40", "client write 500", "server 560", "manager session 200 20 20 2"];

fn words_given<R: Env + AllocGlobal>(rt: &R) -> io::Result<Vec<String>> {
    let words: Vec<String> = env::args(rt)?.skip(1).collect(rt.alloc())?;
    Ok(words)
}

// What is printed of a number; `None` where there is no number, or no memory for its text.
fn number_text(alloc: Global, number: Option<u64>) -> Option<String> {
    let number = number?;
    format!(in alloc; "{number}\n").ok()
}

fn capture_text(alloc: Global, words: &[&str]) -> Option<String> {
    let captures::Extent { messages, events, chains, changes } = captures::counts(alloc, words)?;
    format!(in alloc;
        "{messages} messages, {events} events, {chains} chains, {changes} changes\n"
    )
    .ok()
}

fn manager_text(alloc: Global, words: &[&str]) -> Option<String> {
    let stage = manager::played(alloc, words)?;
    let (calls, sum) = (stage.calls(), stage.sum());
    format!(in alloc; "{calls} {sum}\n").ok()
}

// What is printed for these words; `None` where they ask for nothing that is known, or memory ran out.
fn text_of(alloc: Global, words: &[&str]) -> Option<String> {
    let (word, rest) = words.split_first()?;
    match *word {
        "contexts" => number_text(alloc, contexts::sum_of(alloc, rest)),
        "client" => number_text(alloc, client::sum_of(alloc, rest)),
        "server" => number_text(alloc, server::sum_of(alloc, rest)),
        "captures" => capture_text(alloc, rest),
        "manager" => manager_text(alloc, rest),
        _ => None,
    }
}

fn words_of(alloc: Global, line: &str) -> Result<Vec<&str>, AllocError> {
    let mut words = Vec::new(alloc);
    for word in line.split(' ') {
        words.push(word)?;
    }
    Ok(words)
}

fn text_of_each(alloc: Global) -> Option<String> {
    let mut text = String::new(alloc);
    for line in EACH {
        let words = words_of(alloc, line).ok()?;
        text.push_str(text_of(alloc, &words)?.as_str()).ok()?;
    }
    Some(text)
}

fn asked(alloc: Global, words: &[String]) -> Option<String> {
    let mut asked: Vec<&str> = Vec::new(alloc);
    for word in words {
        asked.push(word.as_str()).ok()?;
    }
    match asked.as_slice() {
        ["each"] => text_of_each(alloc),
        words => text_of(alloc, words),
    }
}

/// Does what the words of the command line ask for.
pub fn run(rt: HostRuntime) -> ExitCode {
    let Ok(words) = words_given(&rt) else {
        return ExitCode::from(2);
    };
    match asked(rt.alloc(), words.as_slice()) {
        Some(text) => {
            let _ = print!(rt; "{text}");
            ExitCode::from(0)
        }
        None => ExitCode::from(2),
    }
}
