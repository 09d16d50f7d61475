// Made by tools/plain_rust from crates/lease_lines/src/client_answers.rt. Changes belong there.

use std::prelude::{String, Vec};

use crate::proved::lease_texts::{Said, digits_of, push_fact, push_given, push_line};
use smblease::proved::lease_client::{Answer, Client, Note, Refusal, Step};
use smblease::proved::lease_facts::Fact;
use smblease::proved::lease_state::{Bytes, ClientNo, Request};
use std::alloc::AllocError;

fn push_request_line(text: &mut String, request: &Request) -> Result<(), AllocError> {
    push_line(text, "request", &[Said::Request(request)])
}

/// Adds the lines of requests.
pub fn push_requests(text: &mut String, requests: &[Request]) -> Result<(), AllocError> {
    for request in requests {
        push_request_line(text, request)?;
    }
    Ok(())
}

// A client's note, as a fact of a record.
fn fact_noted(client: ClientNo, note: Note) -> Fact {
    match note {
        Note::Settled(number, outcome) => Fact::Settled(client, number, outcome),
        Note::Wrote(file, number, patch, way) => Fact::Wrote(client, file, number, patch, way),
        Note::Believes(file, state) => Fact::Believes(client, file, state),
        Note::CachedRead(file, bytes) => Fact::CachedRead(client, file, bytes),
    }
}

/// Adds the lines of a client's notes.
pub fn push_notes(text: &mut String, client: ClientNo, notes: Vec<Note>) -> Result<(), AllocError> {
    for note in notes {
        push_fact(text, &fact_noted(client, note))?;
    }
    Ok(())
}

fn refusal_word(refusal: Refusal) -> &'static str {
    match refusal {
        Refusal::NotOpen => "notopen",
        Refusal::Busy => "busy",
        Refusal::Differs => "differs",
        Refusal::Offline => "offline",
        Refusal::TooLong => "toolong",
        Refusal::Denied => "denied",
        Refusal::UsedUp => "usedup",
    }
}

// The bytes of a file, and where they come from.
fn push_bytes(text: &mut String, bytes: &Bytes, cached: bool) -> Result<(), AllocError> {
    let digits = digits_of(*text.allocator(), bytes.as_slice())?;
    let source = if cached { "cached" } else { "served" };
    write!(text, "bytes {digits} {source}")
}

fn push_words(text: &mut String, answer: &Answer, other: Option<u32>) -> Result<(), AllocError> {
    match answer {
        Answer::Done => text.push_str("done"),
        Answer::Waiting => text.push_str("waiting"),
        Answer::Bytes(bytes, cached) => push_bytes(text, bytes, *cached),
        Answer::Refused(refusal) => {
            let name = refusal_word(*refusal);
            write!(text, "refused {name}")
        }
        Answer::Failed(status) => {
            text.push_str("failed ")?;
            push_given(text, *status, other)
        }
        Answer::Quiet => text.push_str("quiet"),
    }
}

/// Adds the line of an answer. Where it reports a failure, `other` is the number of a status that was given by its number.
pub fn push_answer(text: &mut String, answer: &Answer, other: Option<u32>) -> Result<(), AllocError> {
    text.push_str("answer ")?;
    push_words(text, answer, other)?;
    text.push_str("\n")
}

/// Adds what a step of a client comes to, and gives the client after it.
pub fn push_step(text: &mut String, number: ClientNo, other: Option<u32>, step: Step) -> Result<Client, AllocError> {
    let Step { client, answer, requests, notes } = step;
    push_requests(text, requests.as_slice())?;
    push_notes(text, number, notes)?;
    push_answer(text, &answer, other)?;
    Ok(client)
}
