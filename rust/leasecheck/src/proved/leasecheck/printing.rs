// Made by tools/plain_rust from crates/leasecheck/src/printing.rt. Changes belong there.

use std::prelude::{String, Vec};

use crate::proved::capture_texts::{CaptureVerdict, Side};
use crate::proved::leasecheck::capturing::{capture_findings, capture_record, findings_text};
use crate::proved::leasecheck::drawing::draw_text;
use crate::proved::leasecheck::explaining::{explanation_of, reason_text};
use crate::proved::leasecheck::failure::Failure;
use crate::proved::leasecheck::judging::{judge_text, push_verdict, status_of};
use crate::proved::leasecheck::objects::{capture_object, record_object};
use crate::proved::leasecheck::reading::read_all;
use crate::proved::leasecheck::recording::{Record, record_text, write_record};
use crate::proved::leasecheck::refusal::Refusal;
use crate::proved::leasecheck::replaying::replay;
use crate::proved::leasecheck::tasks::{CaptureForm, Form, Kind, Task, Telling, VERSION, file_named};
use crate::proved::leasecheck::wire::{ack_lines, render};
use crate::proved::leasecheck::{capturing, hexadecimal};
use arrayvec::ArrayString;
use smblease::proved::lease_state::Rules;
use smblease::proved::lease_world::Verdict;
use std::alloc::{AllocError, Global};
use std::fmt::Write as _;
use std::io::{ErrorKind, Read, Write};
use std::str::from_utf8;

// More bytes than the line of any failure has.
const LINE: usize = 80;

// What a task prints, and the exit status.
struct Printed {
    text: String,
    status: u8,
}

// A JSON object that a task prints, and the exit status.
struct Object {
    text: Vec<u8>,
    status: u8,
}

// What a task has made before anything is written.
enum Made {
    Text(Printed),
    /// Its text is made as it is written.
    Record(Record),
    Object(Object),
}

fn done(text: String) -> Printed {
    Printed { text, status: 0 }
}

// The verdict on the record that a reader gives, which is judged as it is read.
fn judged<I: Read>(alloc: Global, input: &mut I) -> Result<Made, Refusal> {
    let verdict = judge_text(alloc, input)?;
    let mut text = String::new(alloc);
    push_verdict(&mut text, &verdict)?;
    let status = status_of(&verdict);
    Ok(Made::Text(Printed { text, status }))
}

// The bytes of the file that an argument names, or those that its digits write.
fn bytes_given<I: Read>(alloc: Global, argument: &str, input: &mut I) -> Result<Vec<u8>, Refusal> {
    match file_named(argument) {
        Some(_) => Ok(read_all(alloc, input)?),
        None => match hexadecimal::argument_bytes(alloc, argument) {
            Ok(bytes) => Ok(bytes),
            Err(failure) => Err(Refusal::of_digits(alloc, failure, argument)),
        },
    }
}

// The bytes that a task goes by.
fn given_to<I: Read>(alloc: Global, task: &Task, input: &mut I) -> Result<Vec<u8>, Refusal> {
    match task {
        Task::Ack(argument) => bytes_given(alloc, argument.as_str(), input),
        Task::Show(_, argument) => bytes_given(alloc, argument.as_str(), input),
        Task::Version => Ok(Vec::new(alloc)),
        Task::Replay(_, _, _) | Task::Judge(_) | Task::Explain(_, _) | Task::Draw(_) | Task::Capture(_, _, _, _) => {
            let bytes = read_all(alloc, input)?;
            Ok(bytes)
        }
    }
}

fn acknowledged(alloc: Global, given: &[u8]) -> Result<Made, Refusal> {
    match ack_lines(alloc, given) {
        Ok(text) => Ok(Made::Text(done(text))),
        Err(failure) => Err(Refusal::of_notification(alloc, failure, given)),
    }
}

fn shown(alloc: Global, kind: Kind, given: &[u8]) -> Result<Made, Refusal> {
    match render(alloc, kind, given) {
        Ok(text) => Ok(Made::Text(done(text))),
        Err(failure) => Err(Refusal::of_shown(alloc, failure, kind, given)),
    }
}

// A run in the form in which it is told.
fn run_made(alloc: Global, form: Form, ran: Record) -> Result<Made, Failure> {
    match form {
        Form::Lines => Ok(Made::Record(ran)),
        Form::Json => {
            let record = record_text(alloc, &ran)?;
            // (it is put together of text, so this is never refused)
            let Ok(lines) = from_utf8(record.as_slice()) else {
                return Err(Failure::Memory);
            };
            let text = record_object(alloc, &Verdict::Safe, "record", lines)?;
            Ok(Made::Object(Object { text, status: 0 }))
        }
    }
}

fn replayed(alloc: Global, telling: Telling, rules: Rules, schedule: &[u8]) -> Result<Made, Refusal> {
    let ran = replay(alloc, telling, rules, schedule)?;
    let made = run_made(alloc, telling.form, ran)?;
    Ok(made)
}

// A verdict with what explains it.
fn reason_made(alloc: Global, form: Form, verdict: &Verdict, explanation: &str) -> Result<Made, AllocError> {
    let status = status_of(verdict);
    match form {
        Form::Lines => {
            let text = reason_text(alloc, verdict, explanation)?;
            Ok(Made::Text(Printed { text, status }))
        }
        Form::Json => {
            let text = record_object(alloc, verdict, "explanation", explanation)?;
            Ok(Made::Object(Object { text, status }))
        }
    }
}

// The verdict on a record, and why it is that.
fn explained(alloc: Global, form: Form, bytes: &[u8]) -> Result<Made, Refusal> {
    let (explanation, verdict) = explanation_of(alloc, bytes)?;
    let made = reason_made(alloc, form, &verdict, explanation.as_str())?;
    Ok(made)
}

// The picture of a record, or of the run of a schedule.
fn drawn(alloc: Global, file: &[u8]) -> Result<Made, Refusal> {
    let text = draw_text(alloc, file)?;
    Ok(Made::Text(done(text)))
}

// The verdict on a capture, with what is found in it.
fn findings_made(alloc: Global, form: Form, verdict: CaptureVerdict, findings: &str) -> Result<Made, AllocError> {
    let status = capturing::status_of(verdict);
    match form {
        Form::Lines => {
            let text = findings_text(alloc, verdict, findings)?;
            Ok(Made::Text(Printed { text, status }))
        }
        Form::Json => {
            let text = capture_object(alloc, verdict, "findings", findings)?;
            Ok(Made::Object(Object { text, status }))
        }
    }
}

// The verdict on a capture, with the record of it.
fn capture_record_made(alloc: Global, form: Form, verdict: CaptureVerdict, lines: String) -> Result<Made, AllocError> {
    let status = capturing::status_of(verdict);
    match form {
        Form::Lines => Ok(Made::Text(Printed { text: lines, status })),
        Form::Json => {
            let text = capture_object(alloc, verdict, "record", lines.as_str())?;
            Ok(Made::Object(Object { text, status }))
        }
    }
}

// The verdict on a capture, and what is found in it or the record of it.
fn captured(alloc: Global, side: Side, kind: CaptureForm, form: Form, text: &[u8]) -> Result<Made, Refusal> {
    match kind {
        CaptureForm::Findings => {
            let (findings, verdict) = capture_findings(alloc, side, text)?;
            let made = findings_made(alloc, form, verdict, findings.as_str())?;
            Ok(made)
        }
        CaptureForm::Record => {
            let (record, verdict) = capture_record(alloc, side, text)?;
            let made = capture_record_made(alloc, form, verdict, record)?;
            Ok(made)
        }
    }
}

// All that a task prints which goes by these bytes.
fn made_of(alloc: Global, task: &Task, given: &[u8]) -> Result<Made, Refusal> {
    match task {
        Task::Ack(_) => acknowledged(alloc, given),
        Task::Show(kind, _) => shown(alloc, *kind, given),
        Task::Replay(_, telling, rules) => replayed(alloc, *telling, *rules, given),
        Task::Judge(_) => {
            let mut left = given;
            judged(alloc, &mut left)
        }
        Task::Explain(_, form) => explained(alloc, *form, given),
        Task::Draw(_) => drawn(alloc, given),
        Task::Capture(_, side, kind, form) => captured(alloc, *side, *kind, *form, given),
        Task::Version => Ok(Made::Text(done(String::from_str(alloc, VERSION)?))),
    }
}

// All that the task prints.
fn make<I: Read>(alloc: Global, task: &Task, input: &mut I) -> Result<Made, Refusal> {
    if let Task::Judge(_) = task {
        return judged(alloc, input);
    }
    let given = given_to(alloc, task, input)?;
    made_of(alloc, task, given.as_slice())
}

// Writes a beginning of a text that isn't empty, and gives how long it is; 0 where the write was interrupted.
fn put_some<W: Write>(text: &[u8], out: &mut W) -> Result<usize, Failure> {
    match out.write(text) {
        Ok(0) => Err(Failure::Output),
        Ok(count) => Ok(count),
        Err(error) if error.kind() == ErrorKind::Interrupted => Ok(0),
        Err(_) => Err(Failure::Output),
    }
}

// Writes all of a text, or a beginning of it where a write fails.
pub(crate) fn put<W: Write>(text: &[u8], out: &mut W) -> Result<(), Failure> {
    let mut left = text;
    for _turn in 0..u64::MAX {
        if left.is_empty() {
            return Ok(());
        }
        match put_some(left, out) {
            Ok(count) => left = &left[count..],
            Err(failure) => return Err(failure),
        }
    }
    Err(Failure::Output)
}

fn print_bytes<O: Write>(bytes: &[u8], out: &mut O) -> Result<(), Failure> {
    put(bytes, out)?;
    out.flush().map_err(|_| Failure::Output)?;
    Ok(())
}

pub(crate) fn print_text<O: Write>(text: &str, out: &mut O) -> Result<(), Failure> {
    print_bytes(text.as_bytes(), out)
}

// Writes what a task has made, and gives the exit status.
fn print_made<O: Write>(alloc: Global, made: &Made, out: &mut O) -> Result<u8, Failure> {
    match made {
        Made::Text(printed) => {
            print_text(printed.text.as_str(), out)?;
            Ok(printed.status)
        }
        Made::Record(recorded) => match write_record(alloc, recorded, out) {
            Ok(()) => Ok(0),
            Err(failure) => Err(failure),
        },
        Made::Object(object) => {
            print_bytes(object.text.as_slice(), out)?;
            Ok(object.status)
        }
    }
}

// Makes all that the task prints, and writes it after that.
fn print_task<I: Read, O: Write>(alloc: Global, task: &Task, input: &mut I, out: &mut O) -> Result<u8, Refusal> {
    let made = make(alloc, task, input)?;
    let status = print_made(alloc, &made, out)?;
    Ok(status)
}

fn line_of(failure: Failure) -> Option<ArrayString<LINE>> {
    let mut line = ArrayString::<LINE>::new();
    match writeln!(&mut line, "{failure}") {
        Ok(()) => Some(line),
        Err(_) => None,
    }
}

// One line for a failure.
pub(crate) fn tell_failure<F: Write>(failure: Failure, faults: &mut F) -> Result<(), Failure> {
    match line_of(failure) {
        Some(line) => put(line.as_str().as_bytes(), faults),
        None => Err(Failure::Output),
    }
}

fn second_bytes(refusal: &Refusal) -> &[u8] {
    match &refusal.second {
        Some(line) => line.as_bytes(),
        None => &[],
    }
}

// The line of a failure, and the second line where there is one.
pub(crate) fn tell_refusal<F: Write>(refusal: &Refusal, faults: &mut F) -> Result<(), Failure> {
    tell_failure(refusal.failure, faults)?;
    put(second_bytes(refusal), faults)
}

/// Does a task, and returns the exit status: 0 where it was done, 1 where its input is refused,
/// where memory ran out or where a write to `out` failed, 3 where the record of a judge or a capture is unsafe, 4 where nothing of
/// a capture is judged.
///
/// The whole text is made before anything is written to `out`, but for a record of more than a block, of which all facts are
/// there and judged, but whose text is made as it is written: where memory runs out then, a beginning of it stands. On a refusal
/// nothing is written, and `faults` gets the line of the failure and mostly a second one, which says more of it, or a beginning
/// of this where a write there fails, which changes no status. `input` has the bytes of the task's file, none for a task without
/// one.
pub fn perform<I: Read, O: Write, F: Write>(alloc: Global, task: &Task, input: &mut I, out: &mut O, faults: &mut F) -> u8 {
    match print_task(alloc, task, input, out) {
        Ok(status) => status,
        Err(refusal) => {
            let refusal = refusal.of_task(alloc, task);
            let _ = tell_refusal(&refusal, faults);
            1
        }
    }
}
