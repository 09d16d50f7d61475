// Made by tools/plain_rust from crates/capture_texts/src/texts.rt. Changes belong there.

//! What people read of a report: a line of words for each finding.
use std::prelude::String;

use crate::proved::capture_texts::finding::{
    BreakFinding, CaptureVerdict, ClientFinding, ClientName, Counts, EpochFinding, FileFinding, FilePlace, Judged, LeaseFinding,
};
use crate::proved::capture_texts::line::Moment;
use crate::proved::capture_texts::names::{MessageName, MessagePart};
use crate::proved::capture_walk::NotJudged;
use crate::proved::lease_texts::{push_all_escaped, state_letters};
use smblease::proved::capture_wire::{Command, Guid};
use smblease::proved::lease_state::{Bytes, LeaseKey};
use std::alloc::{AllocError, Global};
use std::fmt;
use std::ports::uuid::Uuid;

fn is_from_to(first: u32, behind: u32, code: u32) -> bool {
    first <= code && code < behind
}

// Whether a reader doesn't see the character, or it changes the text round it, or it is half a pair.
fn is_hidden(code: u32) -> bool {
    (code < 32 || (is_from_to(127, 160, code) || is_from_to(0x200e, 0x2010, code)))
        || ((is_from_to(0x2028, 0x202f, code) || is_from_to(0x2066, 0x206a, code)) || is_from_to(0xd800, 0xe000, code))
}

fn push_letter(text: &mut String, code: u32) -> Result<(), AllocError> {
    match char::from_u32(code) {
        Some(letter) if !is_hidden(code) => text.push(letter),
        _ => write!(text, "\\u{{{code:x}}}"),
    }
}

fn unit(low: u8, high: u8) -> u32 {
    u32::from(low) + u32::from(high) * 256
}

fn are_pair(first: u32, second: u32) -> bool {
    (0xd800 <= first && first < 0xdc00) && (0xdc00 <= second && second < 0xe000)
}

fn pair_of(first: u32, second: u32) -> u32 {
    0x1_0000 + ((first - 0xd800) * 0x400 + (second - 0xdc00))
}

// The letter of two units where they are a pair, and what comes after both; else that of the first, and what comes after that.
fn one_or_pair<'a>(first: u32, second: u32, behind: &'a [u8], others: &'a [u8]) -> (u32, &'a [u8]) {
    if are_pair(first, second) { (pair_of(first, second), others) } else { (first, behind) }
}

// The first letter of a name that begins with a unit of these bytes, and what comes after it.
fn letter_and_rest(low: u8, high: u8, behind: &[u8]) -> (u32, &[u8]) {
    match behind {
        [next, last, others @ ..] => one_or_pair(unit(low, high), unit(*next, *last), behind, others),
        _ => (unit(low, high), behind),
    }
}

// Half a unit at the end of a name.
fn push_half(alloc: Global, text: &mut String, byte: u8) -> Result<(), AllocError> {
    let digits = std::ports::hex::encode(alloc, [byte])?;
    write!(text, "\\x{digits}")
}

// A name in UTF-16. What isn't valid in it is written as `\u{HHHH}`, and a last byte alone as `\xHH`.
fn push_name(alloc: Global, text: &mut String, bytes: &[u8]) -> Result<(), AllocError> {
    let mut rest = bytes;
    while let [low, high, behind @ ..] = rest {
        let (letter, next) = letter_and_rest(*low, *high, behind);
        push_letter(text, letter)?;
        rest = next;
    }
    match rest {
        [byte, ..] => push_half(alloc, text, *byte),
        _ => Ok(()),
    }
}

pub(crate) fn push_place(alloc: Global, text: &mut String, place: &FilePlace) -> Result<(), AllocError> {
    push_all_escaped(alloc, text, place.server.as_slice())?;
    text.push_str(" ")?;
    push_name(alloc, text, place.path.as_slice())?;
    text.push_str("\\")?;
    push_name(alloc, text, place.name.as_slice())
}

pub(crate) fn push_client(alloc: Global, text: &mut String, name: &ClientName) -> Result<(), AllocError> {
    push_address(alloc, text, &name.address)
}

pub(crate) fn push_moment(alloc: Global, text: &mut String, moment: &Moment) -> Result<(), AllocError> {
    let packet = moment.packet;
    write!(text, "packet {packet} at ")?;
    push_all_escaped(alloc, text, moment.time.as_slice())
}

fn push_with_moment(alloc: Global, text: &mut String, words: &str, moment: &Option<Moment>) -> Result<(), AllocError> {
    text.push_str(words)?;
    if let Some(moment) = moment {
        text.push_str(", ")?;
        push_moment(alloc, text, moment)?;
    }
    Ok(())
}

fn push_judged(alloc: Global, text: &mut String, judged: &Judged) -> Result<(), AllocError> {
    match judged {
        Judged::NoClient => text.push_str("not judged, no client of it is"),
        Judged::Safe => text.push_str("safe"),
        Judged::Unsafe(clash) => push_with_moment(alloc, text, "unsafe", &clash.moment),
        Judged::Granted(clash) => push_with_moment(alloc, text, "unsafe by the server's grants", &clash.moment),
        Judged::Contradictory => text.push_str("not judged, what is shown can't have happened"),
        Judged::TooMany => text.push_str("not judged, it can have happened in too many ways"),
    }
}

fn push_where(alloc: Global, text: &mut String, place: &Option<FilePlace>) -> Result<(), AllocError> {
    if let Some(place) = place {
        text.push_str(" ")?;
        push_place(alloc, text, place)?;
    }
    Ok(())
}

fn push_more(alloc: Global, text: &mut String, clients: &[ClientName]) -> Result<(), AllocError> {
    for client in clients {
        text.push_str(", ")?;
        push_client(alloc, text, client)?;
    }
    Ok(())
}

/// Appends what is said of a file, in one line without its line feed: the file, what is decided of it with the packet, and a
/// client for each lease.
///
/// # Errors
///
/// `AllocError` where there is no memory for it.
pub fn push_file(alloc: Global, text: &mut String, file: &FileFinding) -> Result<(), AllocError> {
    text.push_str("file")?;
    push_where(alloc, text, &file.place)?;
    text.push_str(": ")?;
    push_judged(alloc, text, &file.judged)?;
    push_more(alloc, text, file.clients.as_slice())
}

fn push_sixteen(text: &mut String, bytes: [u8; 16]) -> Result<(), AllocError> {
    let mut buffer = [0; 36];
    text.push_str(Uuid::from_bytes(bytes).hyphenated().encode_lower(&mut buffer))
}

fn push_guid(text: &mut String, guid: Option<Guid>) -> Result<(), AllocError> {
    match guid {
        Some(guid) => push_sixteen(text, guid.0),
        None => text.push_str("unknown"),
    }
}

fn push_address(alloc: Global, text: &mut String, address: &Bytes) -> Result<(), AllocError> {
    if address.is_empty() { text.push_str("unknown") } else { push_all_escaped(alloc, text, address.as_slice()) }
}

fn push_by(alloc: Global, text: &mut String, moment: &Option<Moment>) -> Result<(), AllocError> {
    if let Some(moment) = moment {
        text.push_str(" by ")?;
        push_moment(alloc, text, moment)?;
    }
    Ok(())
}

fn push_given(alloc: Global, text: &mut String, is_wanted: bool, moment: &Option<Moment>) -> Result<(), AllocError> {
    match moment {
        Some(moment) => {
            text.push_str(", acknowledged by ")?;
            push_moment(alloc, text, moment)?;
        }
        None if is_wanted => text.push_str(", not acknowledged")?,
        None => {}
    }
    Ok(())
}

fn push_broken(alloc: Global, text: &mut String, broken: &Option<BreakFinding>) -> Result<(), AllocError> {
    let Some(one) = broken else {
        return text.push_str(", not broken since");
    };
    text.push_str(", broken to ")?;
    text.push_str(state_letters(one.state))?;
    push_by(alloc, text, &one.moment)?;
    push_given(alloc, text, one.wants_acknowledgment, &one.acknowledged)
}

fn push_owner(alloc: Global, text: &mut String, client: &ClientName) -> Result<(), AllocError> {
    text.push_str("    lease of ")?;
    push_client(alloc, text, client)?;
    Ok(())
}

fn push_names(text: &mut String, guid: Option<Guid>, key: LeaseKey) -> Result<(), AllocError> {
    text.push_str(", ClientGuid ")?;
    push_guid(text, guid)?;
    text.push_str(", key ")?;
    push_sixteen(text, key.0)
}

fn push_granted(alloc: Global, text: &mut String, finding: &LeaseFinding) -> Result<(), AllocError> {
    text.push_str(": ")?;
    text.push_str(state_letters(finding.state))?;
    push_by(alloc, text, &finding.granted)?;
    text.push_str(" to ")?;
    push_address(alloc, text, &finding.connection)
}

/// The same of a lease on a file: whose it is, what was granted by which packet to which address, and what broke it since.
///
/// # Errors
///
/// `AllocError` where there is no memory for it.
pub fn push_lease(alloc: Global, text: &mut String, finding: &LeaseFinding) -> Result<(), AllocError> {
    push_owner(alloc, text, &finding.client)?;
    push_names(text, finding.guid, finding.key)?;
    push_granted(alloc, text, finding)?;
    push_broken(alloc, text, &finding.broken)
}

fn reason_text(reason: NotJudged) -> &'static str {
    match reason {
        NotJudged::Missing => "something of it is missing or can't be read",
        NotJudged::Disputed => "it has one key for two files, or learns of a lease over several connections without an order",
        NotJudged::Stranger => "a break under its key comes over a connection of which it isn't known whose it is",
    }
}

fn push_since(alloc: Global, text: &mut String, since: &Option<Moment>) -> Result<(), AllocError> {
    if let Some(moment) = since {
        text.push_str(" after ")?;
        push_moment(alloc, text, moment)?;
    }
    Ok(())
}

fn push_unjudged(alloc: Global, text: &mut String, name: &ClientName) -> Result<(), AllocError> {
    text.push_str("client ")?;
    push_client(alloc, text, name)?;
    text.push_str(": not judged")
}

/// The same of a client that isn't judged: from where on, and why.
///
/// # Errors
///
/// `AllocError` where there is no memory for it.
pub fn push_lost(alloc: Global, text: &mut String, finding: &ClientFinding) -> Result<(), AllocError> {
    push_unjudged(alloc, text, &finding.client)?;
    push_since(alloc, text, &finding.since)?;
    text.push_str(", ")?;
    text.push_str(reason_text(finding.reason))
}

fn push_at(alloc: Global, text: &mut String, moment: &Option<Moment>) -> Result<(), AllocError> {
    if let Some(moment) = moment {
        push_moment(alloc, text, moment)?;
        text.push_str(", ")?;
    }
    Ok(())
}

/// The same of an epoch that doesn't follow on.
///
/// # Errors
///
/// `AllocError` where there is no memory for it.
pub fn push_epoch(alloc: Global, text: &mut String, finding: &EpochFinding) -> Result<(), AllocError> {
    text.push_str("client ")?;
    push_client(alloc, text, &finding.client)?;
    text.push_str(": ")?;
    push_at(alloc, text, &finding.moment)?;
    let (epoch, before) = (finding.epoch, finding.before);
    write!(text, "epoch {epoch} follows {before}")
}

/// The same of what there is in a capture.
///
/// # Errors
///
/// `AllocError` where there is no memory for it.
pub fn push_counts(text: &mut String, counts: Counts) -> Result<(), AllocError> {
    let (connections, frames, unread) = (counts.connections, counts.frames, counts.unread);
    write!(text, "{connections} connections, {frames} frames, {unread} of them unreadable")
}

// The name of a command, as MS-SMB2 2.2.1 has it.
pub(crate) fn command_words(command: Command) -> &'static str {
    match command {
        Command::Negotiate => "NEGOTIATE",
        Command::SessionSetup => "SESSION_SETUP",
        Command::Logoff => "LOGOFF",
        Command::TreeConnect => "TREE_CONNECT",
        Command::TreeDisconnect => "TREE_DISCONNECT",
        Command::Create => "CREATE",
        Command::Close => "CLOSE",
        Command::Flush => "FLUSH",
        Command::Read => "READ",
        Command::Write => "WRITE",
        Command::Lock => "LOCK",
        Command::Ioctl => "IOCTL",
        Command::Cancel => "CANCEL",
        Command::Echo => "ECHO",
        Command::QueryDirectory => "QUERY_DIRECTORY",
        Command::ChangeNotify => "CHANGE_NOTIFY",
        Command::QueryInfo => "QUERY_INFO",
        Command::SetInfo => "SET_INFO",
        Command::OplockBreak => "OPLOCK_BREAK",
        Command::Unknown => "unknown",
    }
}

pub(crate) fn part_words(part: MessagePart) -> &'static str {
    match part {
        MessagePart::Request => " request",
        MessagePart::Response => " response",
        MessagePart::Notification => " notification",
    }
}

impl fmt::Display for MessageName {
    fn fmt(&self, f: &mut fmt::Formatter<'_>) -> fmt::Result {
        f.write_str(command_words(self.command))?;
        f.write_str(part_words(self.part))
    }
}

impl fmt::Display for CaptureVerdict {
    fn fmt(&self, f: &mut fmt::Formatter<'_>) -> fmt::Result {
        f.write_str(match self {
            CaptureVerdict::Safe => "safe",
            CaptureVerdict::Unsafe => "unsafe",
            CaptureVerdict::NothingJudged => "nothing judged",
        })
    }
}
