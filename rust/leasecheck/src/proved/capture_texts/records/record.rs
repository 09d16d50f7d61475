// Made by tools/plain_rust from crates/capture_texts/src/records/record.rt. Changes belong there.

use std::prelude::{String, Vec};

use crate::proved::capture_judge::Level;
use crate::proved::capture_texts::finding::{Belief, ClientName, FileFinding, FilePlace, Report};
use crate::proved::capture_texts::line::Moment;
use crate::proved::capture_texts::names::MessageName;
use crate::proved::capture_texts::records::cast::{Cast, cast_of, count_wanted};
use crate::proved::capture_texts::records::change::{Change, changes_of};
use crate::proved::capture_texts::texts::{command_words, part_words, push_client, push_moment, push_place};
use smblease::proved::lease_facts::Fact;
use smblease::proved::lease_state::{Bytes, ClientNo, FileNo, LeaseState, Memory};
use std::alloc::{AllocError, Global};

/// A line of the record of a capture.
#[derive(Debug)]
pub enum RecordLine {
    /// What happened.
    Fact(Fact),
    /// What is said of it, in one line.
    Remark(String),
}

fn state_of(level: Level) -> LeaseState {
    match level {
        Level::Nothing => LeaseState::from_wire(0),
        Level::Something => LeaseState::from_wire(1),
        Level::Writes => LeaseState::from_wire(5),
    }
}

fn has_feed(text: &[u8]) -> bool {
    text.iter().any(|byte| *byte == b'\n')
}

// Adds a remark, unless it is of several lines.
pub(crate) fn push_remark(lines: &mut Vec<RecordLine>, remark: String) -> Result<(), Memory> {
    if !has_feed(remark.as_bytes()) {
        lines.push(RecordLine::Remark(remark))?;
    }
    Ok(())
}

fn push_fact(lines: &mut Vec<RecordLine>, fact: Fact) -> Result<(), Memory> {
    lines.push(RecordLine::Fact(fact))?;
    Ok(())
}

fn push_found(alloc: Global, remark: &mut String, place: &Option<FilePlace>) -> Result<(), AllocError> {
    if let Some(place) = place {
        remark.push_str(" is ")?;
        push_place(alloc, remark, place)?;
    }
    Ok(())
}

fn file_remark(alloc: Global, number: u8, files: &[FileFinding], place: usize) -> Result<String, Memory> {
    let mut remark = String::new(alloc);
    write!(&mut remark, "file {number}")?;
    if let Some(file) = files.get(place) {
        push_found(alloc, &mut remark, &file.place)?;
    }
    Ok(remark)
}

// The name of a client among those of a file, by its number.
fn named_in(names: &[ClientName], client: u64) -> Option<&ClientName> {
    for name in names {
        if name.number == client {
            return Some(name);
        }
    }
    None
}

// The name of a client.
fn name_in(files: &[FileFinding], client: u64) -> Option<&ClientName> {
    for file in files {
        if let Some(name) = named_in(&file.clients, client) {
            return Some(name);
        }
    }
    None
}

fn client_remark(alloc: Global, number: u8, files: &[FileFinding], client: u64) -> Result<String, Memory> {
    let mut remark = String::new(alloc);
    write!(&mut remark, "client {number}")?;
    if let Some(name) = name_in(files, client) {
        remark.push_str(" is ")?;
        push_client(alloc, &mut remark, name)?;
    }
    Ok(remark)
}

// The names of messages, each after a comma.
fn push_messages(remark: &mut String, names: &[MessageName]) -> Result<(), AllocError> {
    for name in names {
        remark.push_str(", ")?;
        remark.push_str(command_words(name.command))?;
        remark.push_str(part_words(name.part))?;
    }
    Ok(())
}

fn push_when(alloc: Global, remark: &mut String, moment: &Option<Moment>) -> Result<(), AllocError> {
    match moment {
        Some(moment) => {
            push_moment(alloc, remark, moment)?;
            push_messages(remark, moment.messages.as_slice())
        }
        None => remark.push_str("before all packets"),
    }
}

fn belief_of(files: &[FileFinding], change: Change) -> Option<&Belief> {
    files.get(change.finding)?.beliefs.get(change.belief)
}

fn change_remark(alloc: Global, files: &[FileFinding], change: Change) -> Result<String, Memory> {
    let mut remark = String::new(alloc);
    match belief_of(files, change) {
        Some(belief) => push_when(alloc, &mut remark, &belief.moment)?,
        None => remark.push_str("before all packets")?,
    }
    Ok(remark)
}

fn push_starts(alloc: Global, lines: &mut Vec<RecordLine>, files: &[FileFinding], findings: &[usize]) -> Result<(), Memory> {
    for (index, finding) in findings.iter().enumerate() {
        let number = index as u8 + 1;
        push_remark(lines, file_remark(alloc, number, files, *finding)?)?;
        push_fact(lines, Fact::Start(FileNo(number), Bytes::new(Vec::new(alloc))))?;
    }
    Ok(())
}

fn push_joins(alloc: Global, lines: &mut Vec<RecordLine>, files: &[FileFinding], clients: &[u64]) -> Result<(), Memory> {
    for (index, client) in clients.iter().enumerate() {
        let number = index as u8 + 1;
        push_remark(lines, client_remark(alloc, number, files, *client)?)?;
        push_fact(lines, Fact::Joined(ClientNo(number)))?;
    }
    Ok(())
}

fn push_beliefs(alloc: Global, lines: &mut Vec<RecordLine>, files: &[FileFinding], changes: &[Change]) -> Result<(), Memory> {
    for change in changes {
        push_remark(lines, change_remark(alloc, files, *change)?)?;
        push_fact(lines, Fact::Believes(change.client, change.file, state_of(change.level)))?;
    }
    Ok(())
}

fn left_remark(alloc: Global, count: usize) -> Result<String, Memory> {
    let mut remark = String::new(alloc);
    write!(&mut remark, "{count} files are left out, for which there are no numbers")?;
    Ok(remark)
}

// Says how many files there was no room for.
fn push_left_out(alloc: Global, lines: &mut Vec<RecordLine>, count: usize) -> Result<(), Memory> {
    if count > 0 {
        push_remark(lines, left_remark(alloc, count)?)?;
    }
    Ok(())
}

// In the order of their positions; those of one position stay as they are.
fn sort(changes: &mut Vec<Change>) -> Result<(), Memory> {
    changes.sort_by_key(|change| change.position)?;
    Ok(())
}

// The lines of the record of these files.
fn lines_of(alloc: Global, files: &[FileFinding], cast: &Cast) -> Result<Vec<RecordLine>, Memory> {
    let mut changes = changes_of(alloc, files, cast.clients.as_slice(), cast.findings.as_slice())?;
    sort(&mut changes)?;
    let mut lines = Vec::new(alloc);
    push_starts(alloc, &mut lines, files, cast.findings.as_slice())?;
    push_joins(alloc, &mut lines, files, cast.clients.as_slice())?;
    let left_out = count_wanted(files).saturating_sub(cast.findings.len());
    push_left_out(alloc, &mut lines, left_out)?;
    push_beliefs(alloc, &mut lines, files, changes.as_slice())?;
    Ok(lines)
}

/// The lines of the record of what is found in a capture: each file and each client, and then what the clients cache, change by
/// change in the order of the capture. It is of the unsafe files or, where there are none, of the safe ones; a file for which,
/// with its clients, there are no numbers left is left out. A client that caches writes believes RW, one that caches something
/// else R.
///
/// # Errors
///
/// `Memory` where there is none left.
pub fn record_of(alloc: Global, report: &Report) -> Result<Vec<RecordLine>, Memory> {
    let files = report.files.as_slice();
    let cast = cast_of(alloc, files)?;
    lines_of(alloc, files, &cast)
}
