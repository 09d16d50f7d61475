// Made by tools/plain_rust from crates/lease_lines/src/client_lines.rt. Changes belong there.

use crate::proved::lease_texts::Field::{Client, File, Guid, Reply};
use crate::proved::lease_texts::{
    Arrival, CLOSE, FLUSH, Fields, LineFault, OPEN, READ, Row, Table, WRITE, is, read_arrival, read_command,
};
use smblease::proved::lease_client::Command;
use smblease::proved::lease_state::ClientNo;
use std::alloc::Global;

/// What a line asks of client machines.
#[derive(Debug)]
pub enum ClientLine {
    /// Each client has files from 1 to this number.
    Files(u8),
    /// There is one more client, of this ClientGuid.
    Client([u8; 16]),
    /// This is asked of a client.
    Asks(ClientNo, Asked),
}

/// What is asked of one client machine.
#[derive(Debug)]
pub enum Asked {
    /// What its application asks.
    App(Command),
    /// To notice that its connection is lost.
    Notice,
    /// To connect.
    Connect,
    /// To take a message of the server.
    Take(Arrival),
}

impl ClientLine {
    /// Where such lines stand, in words for one that stands elsewhere.
    pub fn place(&self) -> &'static str {
        match self {
            ClientLine::Files(_) => "the number of files is given once, before the first client",
            ClientLine::Client(_) => "clients come after the number of files, at most 255, each with a GUID of its own",
            ClientLine::Asks(..) => "there is no client of this number",
        }
    }
}

impl Asked {
    /// The number of a status that was given by its number.
    pub fn other(&self) -> Option<u32> {
        match self {
            Asked::Take(arrival) => arrival.other,
            Asked::App(_) | Asked::Notice | Asked::Connect => None,
        }
    }
}

const LINES: &[Row] = &[
    Row("files", &[File]),
    Row("client", &[Guid]),
    Row("connect", &[Client]),
    Row("notice", &[Client]),
    Row("take", &[Client, Reply]),
    OPEN,
    CLOSE,
    READ,
    FLUSH,
    WRITE,
];

/// The lines that client machines are given.
pub fn client_table() -> Table {
    Table("a kind of line", LINES)
}

// What an application asks.
fn read_asking(alloc: Global, word: &[u8], fields: &mut Fields) -> Result<ClientLine, LineFault> {
    let (client, command) = read_command(alloc, word, fields)?;
    Ok(ClientLine::Asks(client, Asked::App(command)))
}

fn read_named(alloc: Global, word: &[u8], fields: &mut Fields) -> Result<ClientLine, LineFault> {
    match word {
        _ if is(word, b"files") => Ok(ClientLine::Files(fields.file()?.0)),
        _ if is(word, b"client") => Ok(ClientLine::Client(fields.guid()?)),
        _ if is(word, b"connect") => Ok(ClientLine::Asks(fields.client()?, Asked::Connect)),
        _ if is(word, b"notice") => Ok(ClientLine::Asks(fields.client()?, Asked::Notice)),
        _ if is(word, b"take") => {
            let client = fields.client()?;
            Ok(ClientLine::Asks(client, Asked::Take(read_arrival(alloc, fields)?)))
        }
        _ => read_asking(alloc, word, fields),
    }
}

/// What a line asks of client machines.
///
/// # Errors
///
/// `Refused` where the line asks nothing of them, and `Memory` where there is none left for what it holds.
pub fn read_client_line(alloc: Global, text: &[u8]) -> Result<ClientLine, LineFault> {
    let mut fields = Fields::of(text);
    let word = fields.next()?;
    let line = read_named(alloc, word, &mut fields)?;
    fields.end()?;
    Ok(line)
}
