// Made by tools/plain_rust from crates/leasecheck/src/capturing.rt. Changes belong there.

use std::prelude::String;

use crate::proved::capture_texts::{
    Capture, CaptureVerdict, ClientFinding, EpochFinding, FileFinding, LeaseFinding, RecordLine, Report, Side, notes_of,
    push_counts, push_epoch, push_file, push_lease, push_lost, read_capture, record_of,
};
use crate::proved::lease_texts::{TextFault, push_fact};
use crate::proved::leasecheck::failure::Failure;
use crate::proved::leasecheck::refusal::Refusal;
use std::alloc::{AllocError, Global};

// The capture that a text is.
fn capture_of(alloc: Global, side: Side, text: &[u8]) -> Result<Capture, Refusal> {
    match read_capture(alloc, side, text) {
        Ok(capture) => Ok(capture),
        Err(TextFault::Line(number)) => Err(Refusal::of_capture(alloc, number)),
        Err(TextFault::Memory) => Err(Refusal::bare(Failure::Memory)),
    }
}

fn push_verdict(text: &mut String, verdict: CaptureVerdict) -> Result<(), AllocError> {
    match verdict {
        CaptureVerdict::Safe => text.push_str("safe\n"),
        CaptureVerdict::Unsafe => text.push_str("unsafe\n"),
        CaptureVerdict::NothingJudged => text.push_str("nothing judged\n"),
    }
}

fn push_leases(alloc: Global, text: &mut String, leases: &[LeaseFinding]) -> Result<(), AllocError> {
    for lease in leases {
        push_lease(alloc, text, lease)?;
        text.push_str("\n")?;
    }
    Ok(())
}

fn push_files(alloc: Global, text: &mut String, files: &[FileFinding]) -> Result<(), AllocError> {
    for file in files {
        push_file(alloc, text, file)?;
        text.push_str("\n")?;
        push_leases(alloc, text, &file.leases)?;
    }
    Ok(())
}

fn push_clients(alloc: Global, text: &mut String, clients: &[ClientFinding]) -> Result<(), AllocError> {
    for client in clients {
        push_lost(alloc, text, client)?;
        text.push_str("\n")?;
    }
    Ok(())
}

fn push_epochs(alloc: Global, text: &mut String, epochs: &[EpochFinding]) -> Result<(), AllocError> {
    for epoch in epochs {
        push_epoch(alloc, text, epoch)?;
        text.push_str("\n")?;
    }
    Ok(())
}

// What is found: a line for each file, one for each client that isn't judged, one for each epoch that doesn't follow on, and what
// there is in the capture.
fn findings_of(alloc: Global, report: &Report) -> Result<String, AllocError> {
    let mut text = String::new(alloc);
    push_files(alloc, &mut text, &report.files)?;
    push_clients(alloc, &mut text, &report.clients)?;
    push_epochs(alloc, &mut text, &report.epochs)?;
    push_counts(&mut text, report.counts)?;
    text.push_str("\n")?;
    Ok(text)
}

/// What is found in a capture that was made at this side of its connections, a line for each finding, and the verdict.
///
/// # Errors
///
/// `Line` with the number of the first line that is refused, and what is said of that, and `Memory` where there is none left.
pub fn capture_findings(alloc: Global, side: Side, text: &[u8]) -> Result<(String, CaptureVerdict), Refusal> {
    let report = capture_of(alloc, side, text)?.report(alloc)?;
    let verdict = report.verdict();
    let findings = findings_of(alloc, &report)?;
    Ok((findings, verdict))
}

/// What `leasecheck capture` prints of these: the line of the verdict, and the findings.
pub fn findings_text(alloc: Global, verdict: CaptureVerdict, findings: &str) -> Result<String, AllocError> {
    let mut text = String::new(alloc);
    push_verdict(&mut text, verdict)?;
    text.push_str(findings)?;
    Ok(text)
}

fn push_lines(text: &mut String, lines: &[RecordLine]) -> Result<(), AllocError> {
    for line in lines {
        match line {
            RecordLine::Fact(fact) => push_fact(text, fact)?,
            RecordLine::Remark(remark) => push_remark(text, remark.as_str())?,
        }
    }
    Ok(())
}

fn push_remark(text: &mut String, remark: &str) -> Result<(), AllocError> {
    text.push_str("# ")?;
    text.push_str(remark)?;
    text.push_str("\n")
}

/// The record that `leasecheck capture --record` prints for a capture that was made at this side of its connections: what the
/// clients cached, with remarks; then as remarks the verdict, and what is found.
///
/// # Errors
///
/// `Line` with the number of the first line that is refused, and what is said of that, and `Memory` where there is none left.
pub fn capture_record(alloc: Global, side: Side, text: &[u8]) -> Result<(String, CaptureVerdict), Refusal> {
    let report = capture_of(alloc, side, text)?.report(alloc)?;
    let verdict = report.verdict();
    let lines = record_of(alloc, &report)?;
    let notes = notes_of(alloc, &report)?;
    let mut told = String::new(alloc);
    push_lines(&mut told, &lines)?;
    told.push_str("# ")?;
    push_verdict(&mut told, verdict)?;
    push_lines(&mut told, &notes)?;
    Ok((told, verdict))
}

/// The exit status of the verdict on a capture.
pub fn status_of(verdict: CaptureVerdict) -> u8 {
    match verdict {
        CaptureVerdict::Safe => 0,
        CaptureVerdict::Unsafe => 3,
        CaptureVerdict::NothingJudged => 4,
    }
}
