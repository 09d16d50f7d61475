// Made by tools/plain_rust from crates/lease_lines/src/server_lines.rt. Changes belong there.

use crate::proved::lease_texts::Field::{Client, Content, File, Key, Request, Rules};
use crate::proved::lease_texts::{Field, Fields, LineFault, Row, Table, is, read_request};
use smblease::proved::lease_state::{ClientNo, FileId, FileNo, LeaseKey};
use std::alloc::Global;

/// What a line asks of a server.
#[derive(Debug)]
pub enum ServerLine {
    /// The server is given these rules.
    Rules(smblease::proved::lease_state::Rules),
    /// There is one more file, with these bytes.
    File(smblease::proved::lease_state::Content),
    Call(ServerCall),
    Query(Query),
}

/// What a server is called for.
#[derive(Debug)]
pub enum ServerCall {
    /// The client's connection comes.
    Join(ClientNo),
    /// The client's connection is lost.
    Cut(ClientNo),
    /// The timer of the break of the client's lease of this key runs out.
    Expire(ClientNo, LeaseKey),
    /// The timer of the durable open of this FileId runs out.
    Scavenge(FileId),
    /// A request of the client comes.
    Receive(ClientNo, smblease::proved::lease_state::Request),
}

/// What a server is asked, which changes nothing.
#[derive(Clone, Copy, Debug)]
pub enum Query {
    /// Whether a break of the client's lease of this key waits for its acknowledgment.
    Breaking(ClientNo, LeaseKey),
    /// Which durable open of the client on the file waits for it.
    Kept(ClientNo, FileNo),
    /// The bytes of the file.
    Content(FileNo),
}

impl ServerLine {
    /// Where such lines stand, in words for one that stands elsewhere. Calls and questions stand everywhere.
    pub fn place(&self) -> &'static str {
        match self {
            ServerLine::Rules(_) => "rules stand before all other lines",
            _ => "at most 255 files stand before the first call",
        }
    }
}

const LINES: &[Row] = &[
    Row("rules", &[Rules]),
    Row("file", &[Content]),
    Row("join", &[Client]),
    Row("cut", &[Client]),
    Row("expire", &[Client, Key]),
    Row("scavenge", &[Field::FileId]),
    Row("receive", &[Client, Request]),
    Row("breaking", &[Client, Key]),
    Row("kept", &[Client, File]),
    Row("content", &[File]),
];

/// The lines that a server is given.
pub fn server_table() -> Table {
    Table("a kind of line", LINES)
}

fn read_later(alloc: Global, word: &[u8], fields: &mut Fields) -> Result<ServerLine, LineFault> {
    if is(word, b"receive") {
        let client = fields.client()?;
        Ok(ServerLine::Call(ServerCall::Receive(client, read_request(alloc, fields)?)))
    } else if is(word, b"breaking") {
        Ok(ServerLine::Query(Query::Breaking(fields.client()?, fields.key()?)))
    } else if is(word, b"kept") {
        Ok(ServerLine::Query(Query::Kept(fields.client()?, fields.file()?)))
    } else if is(word, b"content") {
        Ok(ServerLine::Query(Query::Content(fields.file()?)))
    } else {
        Err(LineFault::Refused)
    }
}

fn read_named(alloc: Global, word: &[u8], fields: &mut Fields) -> Result<ServerLine, LineFault> {
    match word {
        _ if is(word, b"rules") => Ok(ServerLine::Rules(fields.rules()?)),
        _ if is(word, b"file") => Ok(ServerLine::File(fields.content(alloc)?)),
        _ if is(word, b"join") => Ok(ServerLine::Call(ServerCall::Join(fields.client()?))),
        _ if is(word, b"cut") => Ok(ServerLine::Call(ServerCall::Cut(fields.client()?))),
        _ if is(word, b"expire") => Ok(ServerLine::Call(ServerCall::Expire(fields.client()?, fields.key()?))),
        _ if is(word, b"scavenge") => Ok(ServerLine::Call(ServerCall::Scavenge(fields.file_id()?))),
        _ => read_later(alloc, word, fields),
    }
}

/// What a line asks of a server.
///
/// # Errors
///
/// `Refused` where the line asks nothing of it, and `Memory` where there is none left for what it holds.
pub fn read_server_line(alloc: Global, text: &[u8]) -> Result<ServerLine, LineFault> {
    let mut fields = Fields::of(text);
    let word = fields.next()?;
    let line = read_named(alloc, word, &mut fields)?;
    fields.end()?;
    Ok(line)
}
