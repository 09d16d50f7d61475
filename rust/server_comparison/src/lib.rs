//! Compares the server of the proved code, which answers by lease records and file summaries, with a server over plain lists: what
//! they give out, call by call, and what they answer to queries, under each of the rules that a server may be given.
//!
//! The plain server is written after docs/PROFILE.md, without contracts, to find a rule that definitions and proved code have wrong
//! together. Without words: the worked examples, and calls by numbers. Each word is the path of a schedule, which is played with
//! client machines over both. A line for each rules reports how many calls gave out the same; at the first difference it reports
//! the call and what both gave out, and the status is 1. After the word `--small-files` the plain server lets no write end past
//! 65,536 bytes.
#![no_std]

extern crate smblease_std as std;

use std::prelude::{AllocGlobal, HostRuntime, Print, String, Vec, println};

mod both;
mod calls;
mod examples;
mod numbers;
mod plain;
mod playing;
mod serving;
mod trouble;
mod worked;

use crate::examples::{calls_by_numbers, worked_examples};
use crate::playing::play_schedule;
use crate::trouble::Trouble;
use smblease::proved::lease_state::{FILE_LIMIT, Order, Rise, Rules};
use std::process::ExitCode;
use std::rt::{Env, Files};
use std::{env, fs, io};

// All that there are.
const ALL_RULES: [Rules; 4] = [
    Rules { order: Order::ByClient, rise: Rise::AsFree },
    Rules { order: Order::ByClient, rise: Rise::Whole },
    Rules { order: Order::ByKey, rise: Rise::AsFree },
    Rules { order: Order::ByKey, rise: Rise::Whole },
];

// How large files were at most, once.
const SMALL_FILE: usize = 65_536;

fn play_file<R: Files + AllocGlobal>(rt: &R, rules: Rules, path: &str, file_limit: usize) -> Result<u64, Trouble> {
    match fs::read(rt, path) {
        Ok(text) => play_schedule(rt.alloc(), rules, text.as_slice(), file_limit),
        Err(_) => Err(Trouble::File),
    }
}

// Whether the calls gave out the same, which is reported.
fn tell(rt: &impl Print, name: &str, rules: Rules, compared: &Result<u64, Trouble>) -> io::Result<bool> {
    let (order, rise) = (rules.order.word(), rules.rise.word());
    match compared {
        Ok(calls) => {
            println!(rt; "{name}, {order},{rise}: {calls} calls, the same")?;
            Ok(true)
        }
        Err(trouble) => {
            println!(rt; "{name}, {order},{rise}: {trouble}")?;
            Ok(false)
        }
    }
}

fn compare_files<R: Files + Print + AllocGlobal>(rt: &R, rules: Rules, paths: &[String], file_limit: usize) -> io::Result<bool> {
    for path in paths {
        let played = play_file(rt, rules, path.as_str(), file_limit);
        if !tell(rt, path.as_str(), rules, &played)? {
            return Ok(false);
        }
    }
    Ok(true)
}

fn compare_examples<R: Print + AllocGlobal>(rt: &R, rules: Rules) -> io::Result<bool> {
    let worked = worked_examples(rt.alloc(), rules);
    let by_numbers = calls_by_numbers(rt.alloc(), rules);
    Ok(tell(rt, "worked examples", rules, &worked)? && tell(rt, "calls by numbers", rules, &by_numbers)?)
}

fn compare<R: Env + Files + Print + AllocGlobal>(rt: &R) -> io::Result<bool> {
    let words: Vec<String> = env::args(rt)?.skip(1).collect(rt.alloc())?;
    let are_small = words.first().is_some_and(|word| word.as_str() == "--small-files");
    let (paths, file_limit) = if are_small { (&words.as_slice()[1..], SMALL_FILE) } else { (words.as_slice(), FILE_LIMIT) };
    for rules in ALL_RULES {
        let are_same = if words.is_empty() { compare_examples(rt, rules)? } else { compare_files(rt, rules, paths, file_limit)? };
        if !are_same {
            return Ok(false);
        }
    }
    Ok(true)
}

/// Compares as the words of the command line ask: status 0 where all is the same, else 1.
pub fn run(rt: HostRuntime) -> ExitCode {
    match compare(&rt) {
        Ok(true) => ExitCode::from(0),
        _ => ExitCode::from(1),
    }
}
