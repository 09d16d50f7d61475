// Made by tools/plain_rust from crates/leasecheck/src/remarks/bytes.rt. Changes belong there.

use std::prelude::String;

use crate::proved::lease_texts::push_quoted;
use crate::proved::leasecheck::tasks::Kind;
use byteorder::{ByteOrder, LittleEndian};
use smblease::proved::lease_wire::{
    Acknowledgment, BreakResponse, ContextValues, Contexts, Direction, HEADER_SIZE, Notification, WireFault, begins_message,
    contexts, contexts_of_create, first_message,
};
use std::alloc::{AllocError, Global};

// ---- create contexts

fn context_meaning(fault: WireFault) -> &'static str {
    match fault {
        WireFault::Short(_) => "fewer than 16 bytes are left for its header",
        WireFault::WrongSize(_) => "its size is another",
        WireFault::BadNext(_) => "Next is below 16, no multiple of 8, or past the end",
        WireFault::BadName(_) => "its name begins below 16 or ends past its end",
        WireFault::BadData(_) => "its data begin below 16 or end past its end",
        WireFault::BadLength(_) => "its data have another length than its structure",
        WireFault::Twice(_) => "an earlier context has its name",
    }
}

// The context that is refused.
#[derive(Clone, Copy)]
struct Refused<'a> {
    number: u64,
    // where it could be read
    name: Option<&'a [u8]>,
}

fn refused_among<'a>(direction: Direction, items: Contexts<'a>) -> Option<Refused<'a>> {
    let mut values = ContextValues::nothing();
    let mut number = 1u64;
    for item in items {
        let Ok(context) = item else {
            return Some(Refused { number, name: None });
        };
        match values.with_context(direction, &context) {
            Ok(more) => values = more,
            Err(_) => {
                return Some(Refused { number, name: Some(context.name) });
            }
        }
        number = number.checked_add(1)?;
    }
    Some(Refused { number, name: None })
}

fn push_name(alloc: Global, text: &mut String, name: Option<&[u8]>) -> Result<(), AllocError> {
    match name {
        None => Ok(()),
        Some(name) => {
            text.push_str(", ")?;
            push_quoted(alloc, text, name)
        }
    }
}

fn context_line(alloc: Global, refused: &Refused<'_>, fault: WireFault) -> Result<String, AllocError> {
    let (number, meaning) = (refused.number, context_meaning(fault));
    let mut text = String::new(alloc);
    write!(text, "context {number}")?;
    push_name(alloc, &mut text, refused.name)?;
    writeln!(text, ": {meaning}")?;
    Ok(text)
}

fn items_remark(
    alloc: Global,
    direction: Direction,
    items: Contexts<'_>,
    fault: WireFault,
) -> Result<Option<String>, AllocError> {
    match refused_among(direction, items) {
        Some(refused) => Ok(Some(context_line(alloc, &refused, fault)?)),
        None => Ok(None),
    }
}

// ---- messages

fn kind_words(kind: Kind) -> &'static str {
    match kind {
        Kind::Ask => "a CREATE request",
        Kind::Reply => "a CREATE response",
        Kind::Break => "a lease break notification",
        Kind::Ack => "a lease break acknowledgment",
        Kind::Response => "a lease break response",
    }
}

// StructureSize, and how many bytes the fixed part takes.
fn kind_size(kind: Kind) -> u16 {
    match kind {
        Kind::Ask => 57,
        Kind::Reply => 89,
        Kind::Break => 44,
        Kind::Ack | Kind::Response => 36,
    }
}

fn kind_count(kind: Kind) -> usize {
    match kind {
        Kind::Ask => 56,
        Kind::Reply => 88,
        Kind::Break => Notification::SIZE,
        Kind::Ack => Acknowledgment::SIZE,
        Kind::Response => BreakResponse::SIZE,
    }
}

fn push_wanted(text: &mut String, wanted: Kind) -> Result<(), AllocError> {
    let (words, size) = (kind_words(wanted), kind_size(wanted));
    write!(text, "{words}, of StructureSize {size}")
}

fn push_stands(text: &mut String, found: &str) -> Result<(), AllocError> {
    write!(text, "; this is {found}")
}

fn push_found_end(text: &mut String, side: &str, size: u16) -> Result<(), AllocError> {
    writeln!(text, "{side} of StructureSize {size}")
}

fn size_line(alloc: Global, wanted: Kind, found: &str, side: &str, size: u16) -> Result<String, AllocError> {
    let mut text = String::new(alloc);
    push_wanted(&mut text, wanted)?;
    push_stands(&mut text, found)?;
    push_found_end(&mut text, side, size)?;
    Ok(text)
}

fn short_line(alloc: Global, wanted: Kind) -> Result<String, AllocError> {
    let (words, count) = (kind_words(wanted), kind_count(wanted));
    let mut text = String::new(alloc);
    writeln!(text, "{words}, whose fixed part has {count} bytes; they end before that")?;
    Ok(text)
}

// The number of two bytes at a place.
fn number_at(bytes: &[u8], place: usize) -> u16 {
    LittleEndian::read_u16(&bytes[place..])
}

fn bare_message_remark(alloc: Global, wanted: Kind, bytes: &[u8]) -> Result<String, AllocError> {
    if bytes.len() < 2 {
        return short_line(alloc, wanted);
    }
    let size = number_at(bytes, 0);
    if size == kind_size(wanted) { short_line(alloc, wanted) } else { size_line(alloc, wanted, "another", "", size) }
}

// ---- whole messages

// SMB2 commands (MS-SMB2 2.2.1)
fn command_word(command: u16) -> &'static str {
    match command {
        0 => "a NEGOTIATE",
        1 => "a SESSION_SETUP",
        2 => "a LOGOFF",
        3 => "a TREE_CONNECT",
        4 => "a TREE_DISCONNECT",
        5 => "a CREATE",
        6 => "a CLOSE",
        7 => "a FLUSH",
        8 => "a READ",
        9 => "a WRITE",
        10 => "a LOCK",
        11 => "an IOCTL",
        12 => "a CANCEL",
        13 => "an ECHO",
        14 => "a QUERY_DIRECTORY",
        15 => "a CHANGE_NOTIFY",
        16 => "a QUERY_INFO",
        17 => "a SET_INFO",
        _ => "an unknown",
    }
}

// Break messages have one command; the sender and StructureSize distinguish them (2.2.23 to
// 2.2.25).
fn break_words(from_server: bool, size: u16) -> &'static str {
    match (from_server, size) {
        (true, 24) => "an oplock break notification or response",
        (true, 44) => "a lease break notification",
        (true, 36) => "a lease break response",
        (true, 9) => "an error response to an OPLOCK_BREAK",
        (true, _) => "an OPLOCK_BREAK response",
        (false, 24) => "an oplock break acknowledgment",
        (false, 36) => "a lease break acknowledgment",
        (false, _) => "an OPLOCK_BREAK request",
    }
}

fn side_word(from_server: bool) -> &'static str {
    if from_server { " response" } else { " request" }
}

// SERVER_TO_REDIR in the flags of the header.
fn is_from_server(message: &[u8]) -> bool {
    LittleEndian::read_u32(&message[16..]) & 1 == 1
}

// Which message stands there, in two parts.
fn message_name(message: &[u8]) -> (&'static str, &'static str) {
    let command = number_at(message, 12);
    let from_server = is_from_server(message);
    if command == 18 {
        (break_words(from_server, number_at(message, HEADER_SIZE)), "")
    } else {
        (command_word(command), side_word(from_server))
    }
}

// The wanted message ends too early, or its contexts are not within it.
fn wanted_line(alloc: Global, wanted: Kind, count: usize) -> Result<String, AllocError> {
    if count < HEADER_SIZE + kind_count(wanted) {
        return short_line(alloc, wanted);
    }
    String::from_str(alloc, "CreateContextsOffset and CreateContextsLength lead into the fixed part or past the end\n")
}

fn whole_message_remark(alloc: Global, wanted: Kind, message: &[u8]) -> Result<String, AllocError> {
    if message.len() < HEADER_SIZE + 2 {
        return short_line(alloc, wanted);
    }
    let size = number_at(message, HEADER_SIZE);
    if size == kind_size(wanted) {
        return wanted_line(alloc, wanted, message.len());
    }
    let (name, side) = message_name(message);
    size_line(alloc, wanted, name, side, size)
}

fn header_words(bytes: &[u8]) -> &'static str {
    if bytes.len() < HEADER_SIZE {
        "the header of an SMB2 message has 64 bytes; they end before that\n"
    } else if number_at(bytes, 4) == 64 {
        "NextCommand leads into the header or past the end\n"
    } else {
        "the header of an SMB2 message, of StructureSize 64; this is another\n"
    }
}

// ---- all bytes

fn create_remark(
    alloc: Global,
    wanted: Kind,
    direction: Direction,
    message: &[u8],
    fault: WireFault,
) -> Result<Option<String>, AllocError> {
    match contexts_of_create(direction, message) {
        Ok(items) => items_remark(alloc, direction, items, fault),
        Err(_) => Ok(Some(whole_message_remark(alloc, wanted, message)?)),
    }
}

fn whole_remark(alloc: Global, kind: Kind, message: &[u8], fault: WireFault) -> Result<Option<String>, AllocError> {
    match kind {
        Kind::Ask => create_remark(alloc, kind, Direction::Request, message, fault),
        Kind::Reply => create_remark(alloc, kind, Direction::Reply, message, fault),
        Kind::Break | Kind::Ack | Kind::Response => Ok(Some(whole_message_remark(alloc, kind, message)?)),
    }
}

/// What is said of bytes without the SMB2 header.
pub(crate) fn bare_remark(alloc: Global, kind: Kind, bytes: &[u8], fault: WireFault) -> Result<Option<String>, AllocError> {
    match kind {
        Kind::Ask => items_remark(alloc, Direction::Request, contexts(bytes), fault),
        Kind::Reply => items_remark(alloc, Direction::Reply, contexts(bytes), fault),
        Kind::Break | Kind::Ack | Kind::Response => Ok(Some(bare_message_remark(alloc, kind, bytes)?)),
    }
}

/// What is said of bytes of a kind that have this fault: what it means, and of create contexts which one is meant. Where another
/// message stands in place of the wanted one, that is named.
pub(crate) fn shown_remark(alloc: Global, kind: Kind, bytes: &[u8], fault: WireFault) -> Result<Option<String>, AllocError> {
    if !begins_message(bytes) {
        return bare_remark(alloc, kind, bytes, fault);
    }
    match first_message(bytes) {
        Ok(message) => whole_remark(alloc, kind, message, fault),
        Err(_) => Ok(Some(String::from_str(alloc, header_words(bytes))?)),
    }
}
