// Made by tools/plain_rust from crates/leasecheck/src/objects.rt. Changes belong there.

use std::prelude::Vec;

use crate::proved::capture_texts::CaptureVerdict;
use smblease::proved::lease_world::Verdict;
use std::alloc::{AllocError, Global};
use std::ports::json::Writer;

// The first line of a text, without its line feed, and what follows.
fn first_line(text: &str) -> (&str, &str) {
    match text.split_once('\n') {
        Some((line, behind)) => (line, behind),
        None => (text, ""),
    }
}

fn push_lines(object: &mut Writer, text: &str) -> Result<(), AllocError> {
    let mut rest = text;
    while !rest.is_empty() {
        let (line, behind) = first_line(rest);
        object.string(line)?;
        rest = behind;
    }
    Ok(())
}

fn push_word(object: &mut Writer, word: &str) -> Result<(), AllocError> {
    object.key("verdict")?;
    object.string(word)
}

fn push_number(object: &mut Writer, name: &str, number: u64) -> Result<(), AllocError> {
    object.key(name)?;
    object.u64(number)
}

fn push_verdict(object: &mut Writer, verdict: &Verdict) -> Result<(), AllocError> {
    match verdict {
        Verdict::Safe => push_word(object, "safe"),
        Verdict::Unsafe { place, rule } => {
            push_word(object, "unsafe")?;
            push_number(object, "place", *place)?;
            push_number(object, "rule", u64::from(rule.number()))
        }
        Verdict::Malformed { place } => {
            push_word(object, "malformed")?;
            push_number(object, "place", *place)
        }
    }
}

fn capture_word(verdict: CaptureVerdict) -> &'static str {
    match verdict {
        CaptureVerdict::Safe => "safe",
        CaptureVerdict::Unsafe => "unsafe",
        CaptureVerdict::NothingJudged => "nothing judged",
    }
}

// The text of an object whose first members are written, with the lines of a text behind them.
fn ended(mut object: Writer, name: &str, lines: &str) -> Result<Vec<u8>, AllocError> {
    object.key(name)?;
    object.begin_array()?;
    push_lines(&mut object, lines)?;
    object.end_array()?;
    object.end_object()?;
    let mut text = object.into_inner();
    text.push(b'\n')?;
    Ok(text)
}

/// The verdict on a record, and the lines of a text under a name, as one JSON object in a line.
pub fn record_object(alloc: Global, verdict: &Verdict, name: &str, lines: &str) -> Result<Vec<u8>, AllocError> {
    let mut object = Writer::new(Vec::new(alloc));
    object.begin_object()?;
    push_verdict(&mut object, verdict)?;
    ended(object, name, lines)
}

/// The same of the verdict on a capture.
pub fn capture_object(alloc: Global, verdict: CaptureVerdict, name: &str, lines: &str) -> Result<Vec<u8>, AllocError> {
    let mut object = Writer::new(Vec::new(alloc));
    object.begin_object()?;
    push_word(&mut object, capture_word(verdict))?;
    ended(object, name, lines)
}
